class A {
    void m() {
        System.out.write(-2147483648);
        System.out.write(2147483648);
    }
}
