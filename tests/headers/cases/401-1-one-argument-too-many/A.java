class Box<T> { }
class A {
    Box<String, String> boxes;
}
