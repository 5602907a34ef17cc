class A {
    int a;
    void m() {
        for (int a = 0; a < 1; a++) m();
        for (int a : new int[0]) m();
        {
            int a = 1;
        }
        try {
            int a = 1;
        } catch (NullPointerException a) {
            m();
        }
        int a = 1;
    }
}
