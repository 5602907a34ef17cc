class A {
    <T extends U, U extends T> void m() { }
}
