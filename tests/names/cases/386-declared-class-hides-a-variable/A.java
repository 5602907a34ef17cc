class A<T> {
    static class T {
        int number;
    }
    static T field;
    static int method(T it) {
        T local = it;
        return local.number;
    }
    static class B {
        T field;
    }
}
