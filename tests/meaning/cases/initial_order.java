class A { static { System.out.println("A"); } static int a = Main.say("A.a", 1); static int b; }
class B extends A { static { System.out.println("B"); } static int c = Main.say("B.c", 2); static final int D = 7; static final Integer E = Main.say("B.E", 3); static void f() { System.out.println("f"); } }
class C { static int x = 5; static int y = x + C.z; static int z = 9; static { x = z; } static { System.out.println(x + " " + y + " " + z); } }
interface I { int one = Main.say("I.one", 1); int two = 2; }
class D implements I { static { System.out.println("D"); } }
class E { static E self = new E(); static int n = 4; int m = n; E() { System.out.println("E " + n + " " + m); } }
class F { static { System.out.println("F"); } F() { System.out.println("new F"); } }
class Main {
  static { System.out.println("Main"); }
  static int say(String s, int n) { System.out.println(s); return n; }
  public static void main(String[] args) {
    System.out.println("start"); System.out.println(B.D); System.out.println(B.a); B.b = 6; System.out.println("then"); B.f(); System.out.println(B.b); System.out.println(C.z); D[] ds = new D[1]; D d = new D(); System.out.println(I.two); System.out.println(D.one); System.out.println(E.self.m); System.out.println(E.n); F none = null; Object o = none; System.out.println(o instanceof F); F[][] fs = new F[2][2]; System.out.println(fs.length); new F(); new F();
  }
}
