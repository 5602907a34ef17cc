class A {
    int m(boolean b, char c, Byte d) {
        int e = -c + +d + ~d;
        return + -b;
    }
}
