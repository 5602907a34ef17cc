class A {
    void method() {
        private
            int
            number;
    }
}
