interface A {
    void method(int one, String other,
        int one);
}
