class A {
    void m() {
        System.out.println(2147483648);
    }
}
