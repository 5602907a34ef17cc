class A {
    protected void m() { }
}
class B extends A {
    public void m() { }
}
