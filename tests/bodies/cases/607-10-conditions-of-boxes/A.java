class A {
    <T extends Boolean> int m(Boolean a, T t) {
        while (a) a = false;
        if (t) return 1;
        do a = t; while (!t);
        for (; t; ) return 2;
        return a ? 1 : 2;
    }
}
