abstract class B {
    abstract int go();
}
class A extends B {
    int go() {
        return super.go();
    }
}
