import java.util.List;

class A {
    List first;
    static class List {
        int length;
    }
    int length() {
        return first.length;
    }
}
