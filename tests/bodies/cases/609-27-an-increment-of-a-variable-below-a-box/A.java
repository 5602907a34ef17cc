class A<T extends Integer> {
    int m(T t) {
        int i = -t;
        t++;
        return i;
    }
}
