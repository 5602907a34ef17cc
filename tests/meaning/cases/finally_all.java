class Main {
  static int f(int k) {
    try { if (k == 0) return 1; if (k == 1) throw new RuntimeException("r"); System.out.println("body"); }
    catch (RuntimeException e) { System.out.println("caught " + e.getMessage()); return 2; }
    finally { System.out.println("finally " + k); if (k == 3) return 9; }
    return 5;
  }
  static int g() { int x = 1; try { return x; } finally { x = 2; } }
  static int h() { for (int i = 0; i < 3; i++) { try { if (i == 1) continue; if (i == 2) break; System.out.println("i" + i); } finally { System.out.println("f" + i); } } return 0; }
  static int lose() { while (true) { try { throw new RuntimeException("lost"); } finally { break; } } return 7; }
  public static void main(String[] args) {
    for (int i = 0; i < 4; i++) System.out.println(f(i)); System.out.println(g()); h(); System.out.println(lose());
    try { try { throw new Exception("a"); } finally { System.out.println("inner"); } } catch (Exception e) { System.out.println(e.getMessage()); }
    try { try { throw new RuntimeException("one"); } finally { throw new RuntimeException("two"); } } catch (RuntimeException e) { System.out.println(e.getMessage()); }
    try { throw new Error("x"); } catch (RuntimeException | Error e) { System.out.println("multi"); }
    try { Object o = "s"; Integer i = (Integer) o; } catch (NullPointerException e) { System.out.println("no"); } catch (ClassCastException e) { System.out.println("cce"); }
    throw new ArithmeticException();
  }

}
