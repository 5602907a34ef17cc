class Main {
  static int f(int k) {
    int n = 0;
    outer: for (int i = 0; i < 3; i++) {
      try { for (int j = 0; j < 3; j++) { try { n++; if (j == k) continue outer; if (i == k) break outer; if (k == 5) return n; } finally { System.out.println("in " + i + j); } } }
      finally { System.out.println("out " + i); if (k == 7) continue outer; }
    }
    return -n;
  }
  static int g() { while (true) { try { return 1; } finally { break; } } return 2; }
  static int h() { try { try { throw new RuntimeException("x"); } finally { return 3; } } finally { System.out.println("last"); } }
  static int deep(int n) { try { if (n == 0) throw new RuntimeException("deep"); return deep(n - 1); } finally { System.out.println("up " + n); } }
  static int x = 0; static int set() { try { x = 1; return x; } finally { x = 2; } }
  public static void main(String[] args) {
    for (int k = 0; k < 8; k++) System.out.println(f(k)); System.out.println(g()); System.out.println(h()); try { deep(3); } catch (RuntimeException e) { System.out.println(e.getMessage()); } System.out.println(set() + " " + x);
    for (int i = 0; i < 2; i++) { try { throw new Error("lost"); } finally { continue; } } try { try { throw new Exception("first"); } catch (Exception e) { throw new RuntimeException("second"); } finally { System.out.println("then"); } } catch (RuntimeException e) { System.out.println(e.getMessage()); }
    label: { try { break label; } finally { System.out.println("broken"); } }
  }
}
