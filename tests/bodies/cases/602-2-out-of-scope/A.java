class A {
    int m() {
        {
            int a = 1;
            a++;
        }
        return a;
    }
}
