class A {
    static int m(Comparable<?> c) {
        c += "x";
        return (c += "y").hashCode();
    }
}
