class A { static int n = Main.fail(1); static void f() { } }
class B extends A { static { System.out.println("never"); } static void g() { } static final int K = 4; }
class C { static int n = Main.fail(2); static void f() { } }
class D { static { Main.fail(3); } }
class E { int v = Main.fail(1); }
class Main {
  static int fail(int k) { System.out.println("fail " + k); if (k == 1) throw new RuntimeException("x"); if (k == 2) throw new Error("own"); int[] a = new int[1]; return a[k]; }
  public static void main(String[] args) {
    try { B.g(); } catch (ExceptionInInitializerError e) { System.out.println("in init"); }
    try { B.g(); } catch (NoClassDefFoundError e) { System.out.println("no B"); } try { A.f(); } catch (NoClassDefFoundError e) { System.out.println("no A"); } System.out.println(B.K);
    try { C.f(); } catch (ExceptionInInitializerError e) { System.out.println("wrong"); } catch (Error e) { System.out.println(e.getMessage()); } try { System.out.println(C.n); } catch (NoClassDefFoundError e) { System.out.println("no C"); }
    try { new D(); } catch (LinkageError e) { System.out.println("D"); } try { new D(); } catch (LinkageError e) { System.out.println("D again"); }
    try { new E(); } catch (RuntimeException e) { System.out.println(e.getMessage()); } try { new E(); } catch (RuntimeException e) { System.out.println(e.getMessage()); } A.n = 3;
  }
}
