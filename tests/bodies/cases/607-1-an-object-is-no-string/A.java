class A {
    String m(Object o) {
        String s = o;
        return s;
    }
}
