class A {
    final int c = 5;
}

class Main {
    static int made;
    static A make() { made++; return made < 2 ? new A() : null; }
    public static void main(String[] args) {
        System.out.println(make().c);
        System.out.println(made);
        try {
            System.out.println(make().c);
        } catch (NullPointerException e) {
            System.out.println("null");
        }
    }
}
