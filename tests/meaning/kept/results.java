class Main {
  static int n() { }
  static long l() { if (n() == 1) { return 1L; } }
  static boolean b() { try { } finally { } }
  static char c() { while (b()) { } }
  static String s() { s: { break s; } }
  int[] a() { }
  static void v() { }
  public static void main(String[] args) {
    System.out.println(n()); System.out.println(l()); System.out.println(b()); System.out.println(c() == 0); System.out.println(s()); System.out.println(new Main().a() == null);
    v();
    System.out.println(n() + 1 == 1);
  }
}
