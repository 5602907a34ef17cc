class Main {
  static int f() { try { System.out.println("before"); System.exit(-3 + 10); return 1; } finally { System.out.println("never"); } }
  public static void main(String[] args) { try { f(); } catch (Throwable t) { System.out.println("no"); } System.out.println("neither"); }
}
