class Box<T extends Number> { }
class A {
    void m() {
        Box<String> box = null;
    }
}
