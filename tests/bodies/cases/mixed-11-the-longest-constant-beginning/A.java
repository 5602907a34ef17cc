class A {
    static final String B = "b";
    void m(int a, String s) {
        switch (a) {
            case "a" + B == "ab" ? 1 : 2:
                break;
            case "a" + B + s == "ab" ? 3 : 4:
        }
    }
}
