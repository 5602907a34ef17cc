class A {
    static {
        if (A.class_is()) return;
    }
    static boolean class_is() {
        return true;
    }
}
