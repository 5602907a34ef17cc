class S { static int z = 1 / Main.zero; }
class T extends S { static { System.out.println("never"); } static void f() { } }
class Thrower { static { if (Main.zero == 0) throw new Error("own"); } static void f() { } }
class Main {
  static int zero;
  public static void main(String[] args) {
    try { T.f(); } catch (ExceptionInInitializerError e) { System.out.println("eiie"); }
    try { T.f(); } catch (NoClassDefFoundError e) { System.out.println("ncdfe"); }
    try { System.out.println(S.z); } catch (NoClassDefFoundError e) { System.out.println("ncdfe2"); }
    try { Thrower.f(); } catch (Error e) { System.out.println(e.getMessage()); }
  }
}
