class A {
    int String = 1;
    int a = 2;
    int m(int a) {
        for (int i = 0; i < a; i++) {
            int b = i;
            a = a + b;
        }
        int b = this.a + String;
        return b + java.lang.Integer.parseInt("1");
    }
}
