class A<T extends Exception> {
    static void method() throws T { }
}
