interface I { }
interface J { }
class A {
    <T extends Object & I & J> void m(T t) { }
}
class B extends A {
    <T extends Object & J & I> void m(T t) { }
}
