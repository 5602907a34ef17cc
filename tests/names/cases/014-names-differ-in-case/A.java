class A {
    static class m { }
    static class M { }
    m one;
    M two;
}
