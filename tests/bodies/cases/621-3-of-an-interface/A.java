interface I {
    int go();
}
abstract class B implements I {
}
class A extends B {
    public int go() {
        return super.go();
    }
}
