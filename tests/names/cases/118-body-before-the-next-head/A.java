class A {
    void method() {
        Nope local;
    }
}
class B extends Never { }
