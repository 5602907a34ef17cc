abstract class A {
    private A() { }
    protected A(int number) { }
    public A(String text) { }
    private static final void first() { }
    public abstract void second();
    abstract protected void third();
    final static private int fourth(final int number) {
        return number;
    }
    interface I {
        public abstract void first();
        abstract void second();
        public void third();
    }
}
