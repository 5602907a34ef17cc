class A {
    static <T> T make() {
        return null;
    }
    static String f = make();
    String g() {
        String s = make();
        int i = make();
        s = (make());
        String[] a = {make()};
        s += make();
        return make();
    }
}
