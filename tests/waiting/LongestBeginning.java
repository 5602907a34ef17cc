class Main {
    static int n;
    static boolean f() { n++; return true; }
    public static void main(String[] args) {
        String s = "c";
        System.out.println(("a" + "b" + s).equals("abc"));
        System.out.println("a" + "b" == "ab");
        final boolean t = true;
        System.out.println(t && 1 < 2 && f());
        System.out.println(n);
    }
}
