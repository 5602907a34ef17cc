class Box<T extends Number> { }
class A {
    Box<String> box;
}
