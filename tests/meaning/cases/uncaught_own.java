class Own extends RuntimeException { Own(String m) { super(m); } }
class Main {
  static void f(int n) { if (n == 0) throw new Own("deep"); try { f(n - 1); } finally { System.out.println(n); } }
  public static void main(String[] args) { f(3); System.out.println("never"); }
}
