class B {
    int g;
    B(int a) { }
}
class A extends B {
    int f;
    A() {
        super(f);
    }
}
