class A {
    Object m(int[] a) {
        return a.length + a.clone().length;
    }
}
