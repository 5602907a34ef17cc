import java.util.List;

class A {
    List.Entry<String, A> unknown;
}
