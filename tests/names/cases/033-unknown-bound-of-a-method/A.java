class A {
    <T extends Comparable<Nope>> void method() { }
}
