class A extends B { }
abstract class B extends C {
    abstract void n();
}
class C {
    void n() { }
}
