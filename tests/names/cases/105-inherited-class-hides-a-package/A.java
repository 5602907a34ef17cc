class A {
    static class java { }
}
class B extends A {
    java.lang.Object second;
}
