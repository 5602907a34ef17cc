class A {
    abstract void m();
}
