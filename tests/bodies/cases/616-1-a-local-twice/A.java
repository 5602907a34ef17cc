class A {
    void m() {
        int a = 1;
        {
            int a = 2;
        }
    }
}
