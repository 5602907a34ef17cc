class A<T> { T field; }
class B {
    T field;
}
