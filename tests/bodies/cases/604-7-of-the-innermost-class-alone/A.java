class A {
    static void go(String s) { }
    static class B {
        void go(int a) { }
        void m() {
            go("s");
        }
    }
}
