class A {
    Object m(int[] a, Object[] b) {
        Object c = (String[]) b;
        Object d = (Object) a;
        return (long[]) a;
    }
}
