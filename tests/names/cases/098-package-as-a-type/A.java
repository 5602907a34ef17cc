class A {
    java.util field;
}
