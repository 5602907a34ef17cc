class A {
    @SafeVarargs static <T> void method(T[] all) { }
}
