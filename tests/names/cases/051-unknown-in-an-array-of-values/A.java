class A {
    Object[] field = {
        null,
        (Nope) null
    };
}
