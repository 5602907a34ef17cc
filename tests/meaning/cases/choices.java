class A { } class B extends A { } class C extends A { }
class Main {
  static boolean say(String s, boolean b) { System.out.println(s); return b; }
  static int f(int n) { return n < 0 ? -1 : n == 0 ? 0 : n < 10 ? 1 : 2; }
  public static void main(String[] args) {
    int[] is = {-5, 0, 3, 50}; for (int i : is) System.out.println(f(i)); boolean t = true; A a = t ? new B() : new C(); System.out.println(a instanceof B); long l = t ? 1 : 2L; System.out.println(l); Integer n = null; Integer m = t ? n : null; System.out.println(m); try { int k = t ? n : 0; } catch (NullPointerException e) { System.out.println("unboxed"); } System.out.println(t ? 'a' : 0); int x = 98; System.out.println(t ? x : 'a'); System.out.println(!t ? "no" : say("chosen", false) ? "wrong" : "right"); System.out.println(t || say("not", true)); System.out.println(!t && say("not", true)); System.out.println(t && say("and", false) || say("or", true)); if (t) if (!t) System.out.println("a"); else System.out.println("b"); if (!t) ; else if (t) System.out.println("c"); else System.out.println("d"); byte b = 1; short s = 2; System.out.println(t ? b : s); char c = 'z'; System.out.println(t ? c : c); Object o = t ? "s" : new A(); System.out.println(o); (t ? is : null)[0] = 9; System.out.println(is[0]); boolean r = t ? false : t; System.out.println(r);
  }
}
