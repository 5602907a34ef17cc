class H { static int n = 5; static H make() { System.out.println("make"); return null; } static void f() { System.out.println("f"); } }
class Main { public static void main(String[] args) { H h = null; System.out.println(H.make().n); h.n = 7; System.out.println(H.n); } }
