class A<T extends Integer> {
    void m(Integer i, Short s, T t) {
        i++;
        s--;
        i += 1;
        int n = t + 1;
        t += 1;
    }
}
