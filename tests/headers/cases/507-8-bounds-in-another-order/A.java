interface I { }
interface J { }
class A {
    <T extends I & J> int m(T t) { return 0; }
}
class B extends A {
    <T extends J & I> String m(T t) { return null; }
}
