class A {
    boolean m(boolean a, boolean b) {
        boolean c = a & b | a ^ b;
        return a < b;
    }
}
