import java.util.Map.Entry;

class A {
    Entry<String, A> field;
}
