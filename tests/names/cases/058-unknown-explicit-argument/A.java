class A {
    static <T> void give() { }
    void method() {
        A.<A>give();
        this.
            <Nope>give();
    }
}
