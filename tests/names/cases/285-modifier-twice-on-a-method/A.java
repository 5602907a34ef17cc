class A {
    public static public void method() { }
}
