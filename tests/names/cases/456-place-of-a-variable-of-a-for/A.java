class A {
    void method(int[] all) {
        for (
            private
            int
            one : all) { }
    }
}
