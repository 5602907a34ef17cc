class A { int n = 1; String name() { return "A"; } String hello() { return "hello " + name() + n; } static String s() { return "sA"; } }
class B extends A { int n = 2; String name() { return "B" + super.name(); } static String s() { return "sB"; } }
class C extends B { String name() { return "C" + super.name(); } }
interface I { int k = 4; int twice(int x); }
class D implements I { public int twice(int x) { return x * 2 + k; } }
class Main {
  public static void main(String[] args) {
    A a = new C(); System.out.println(a.hello()); System.out.println(a.name()); System.out.println(((B) a).n + a.n);
    B b = new B(); System.out.println(b.hello()); System.out.println(A.s() + B.s());
    I i = new D(); System.out.println(i.twice(5)); System.out.println(a instanceof B); System.out.println(a instanceof I); System.out.println(i instanceof D);
    A none = null; System.out.println(none instanceof A);
    try { none.name(); } catch (NullPointerException e) { System.out.println("npe"); }
    try { System.out.println(none.n); } catch (NullPointerException e) { System.out.println("npe2"); }
    try { none.n = 4; } catch (NullPointerException e) { System.out.println("npe3"); }
    try { B x = (B) new A(); } catch (ClassCastException e) { System.out.println("cce"); }
    B y = (B) none; System.out.println(y == null);
  }
}
