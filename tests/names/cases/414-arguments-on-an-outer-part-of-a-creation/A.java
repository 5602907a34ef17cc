class A<T> {
    static class M { }
    Object first = new A.M();
    Object second = new A<String>.M();
}
