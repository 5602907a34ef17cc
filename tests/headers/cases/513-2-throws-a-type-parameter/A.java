class A<T extends Exception> {
    void m() throws T, Error { }
}
