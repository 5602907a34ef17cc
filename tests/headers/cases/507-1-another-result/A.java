class A {
    String m() { return null; }
}
class B extends A {
    Object m() { return null; }
}
