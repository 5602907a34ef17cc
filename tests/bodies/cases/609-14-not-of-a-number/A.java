class A {
    boolean m(int a, Boolean b) {
        return !!b | !a;
    }
}
