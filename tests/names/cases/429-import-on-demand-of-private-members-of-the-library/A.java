import java.util.ArrayList.*;

class A {
    Node<String> field;
}
