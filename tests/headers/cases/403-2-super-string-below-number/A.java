class Box<T extends Number> { }
class A {
    Box<? super String> box;
}
