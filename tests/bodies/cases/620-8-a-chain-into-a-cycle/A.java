class A {
    A() { this(1); } A(int a) { this(2L); } A(long a) { this((int) a); }
}
