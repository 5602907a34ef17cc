class A {
    byte m(Integer i) {
        return (byte) i;
    }
}
