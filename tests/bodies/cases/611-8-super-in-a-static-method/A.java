class A {
    static String m() {
        return super.toString();
    }
}
