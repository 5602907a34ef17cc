interface I { }
interface J { }
class A {
    <T extends I> void m(T t) { }
}
class B extends A {
    @Override <T extends I & J> void m(T t) { }
}
