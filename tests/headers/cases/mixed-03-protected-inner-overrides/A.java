class A {
    protected Object m() { return null; }
    static class B extends A {
        protected String m() { return null; }
    }
}
