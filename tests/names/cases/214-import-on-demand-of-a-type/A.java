import java.util.Map.*;

class A {
    Entry<String, A> field;
}
