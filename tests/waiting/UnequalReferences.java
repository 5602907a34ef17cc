class Main {
    boolean f(Integer i, String s) { return i == s; }
}
