class A {
    Object field =
        new java.util.ArrayList<
            Nope
        >();
}
