// taken
class A {
  A() { }
  @Deprecated private A(int a) { this(); }
  int B() { return 1; }
  void A() { }
  static { }
  { }
  static class B {
    B() { }
    B(A a) { }
    static { }
    { }
  }
  interface I {
    int I();
    class C {
      C() { }
      static { }
      { }
    }
  }
}
interface J {
  class K { K() { } { } }
  K J();
}
