class A {
    A(int a) { this("a"); } A(String s) { this(1); }
}
