class A {
    static class Exception {
        int own;
    }
    Exception field;
    int number = field.own;
    void method() throws java.lang.Exception { }
}
