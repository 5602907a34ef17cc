class A {
    java.util.Lists field;
}
