import java.util.ArrayList;

class A<E> extends ArrayList<E> {
    Node<E> field;
}
