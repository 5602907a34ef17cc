class A {
    A known;
    java
        .util
        .Lists field;
}
