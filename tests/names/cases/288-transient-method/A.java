interface A {
    transient void method();
}
