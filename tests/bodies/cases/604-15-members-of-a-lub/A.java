class A {
    int m(boolean b) {
        int h = (b ? 1 : "a").hashCode();
        return (b ? 1 : "a").compareTo("b");
    }
}
