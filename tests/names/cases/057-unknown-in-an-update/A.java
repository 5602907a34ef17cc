class A {
    void method(Object value) {
        for (int at = 0; at < 3;
             at++, value = (Nope) value) { }
    }
}
