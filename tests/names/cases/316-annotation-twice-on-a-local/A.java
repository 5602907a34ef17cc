class A {
    void method() {
        @Deprecated @Deprecated int number;
    }
}
