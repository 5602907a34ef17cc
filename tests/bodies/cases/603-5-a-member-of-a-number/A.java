class A {
    String m(int a) {
        return a.toString();
    }
}
