class A {
    interface B {
        interface A { }
    }
}
