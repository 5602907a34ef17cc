class P { static { System.out.println("P"); } static int x = Main.say("P.x", 1); static final int C = 9; }
class Q extends P { static { System.out.println("Q"); } static int y = x + 1; static int f() { return 3; } }
interface J { int v = Main.say("J.v", 5); }
class R implements J { static { System.out.println("R"); } static int w = 2; }
class Cyc1 { static int a = Cyc2.b + 1; } class Cyc2 { static int b = Cyc1.a + 1; }
class Boom { static int z = 1 / Main.zero; static void touch() { } }
class Main {
  static int zero;
  static int say(String s, int n) { System.out.println(s); return n; }
  public static void main(String[] args) {
    System.out.println(P.C); System.out.println("main"); Q[] qs = new Q[2]; Q q = null; System.out.println(Q.y); System.out.println(Q.f()); new R(); System.out.println(R.v);
    System.out.println(Cyc1.a + "," + Cyc2.b);
    try { Boom.touch(); } catch (ExceptionInInitializerError e) { System.out.println("eiie"); }
    try { Boom.touch(); } catch (NoClassDefFoundError e) { System.out.println("ncdfe"); }
    Boom.touch();
  }
}
