class A {
    static final Integer F = 1;
    static final int G = 2;
    void m(Integer a) {
        switch (a) {
            case G:
                break;
            case F:
        }
    }
}
