class A {
    Object m(Byte b, Character c, int[] a) {
        return new int[b]['c'][a[c] + a[(short) 1]];
    }
}
