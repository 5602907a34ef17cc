class A {
    Override field;
}
