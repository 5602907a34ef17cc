class Main {
    void f(Object o) {
        String s = ((o));
    }
}
