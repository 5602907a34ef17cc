class Main {
  static final int ONE = 1;
  static String f(int n) { String s = ""; switch (n) { case 1: s += "a"; case 2: s += "b"; break; default: s += "d"; case 3: s += "c"; break; case -5: return "minus"; case 2147483647: s += "max"; } return s; }
  static int g(char c) { switch (c) { case 'a': return 1; case 'b': case 'c': return 2; } return 0; }
  static int h(byte b) { int n = 0; for (int i = 0; i < 3; i++) { switch (b) { case 1: continue; case 2: break; default: return -1; } n += 10; } return n; }
  public static void main(String[] args) {
    int[] is = {0, 1, 2, 3, -5, 2147483647, 7}; for (int i : is) System.out.println(f(i)); for (char c = 'a'; c < 'e'; c++) System.out.println(g(c)); System.out.println(h((byte) 1)); System.out.println(h((byte) 2)); System.out.println(h((byte) 3));
    out: for (int i = 0; ; i++) { switch (i) { case 0: case 1: System.out.println("on"); break; case 2: { int k = i; switch (k) { case 2: System.out.println("inner"); break; } System.out.println("after"); break; } default: break out; } System.out.println("turn " + i); }
    switch (5) { } switch (6) { default: } Integer b = 3; switch (b) { case 3: System.out.println("boxed"); } Integer none = null; try { switch (none) { default: System.out.println("no"); } } catch (NullPointerException e) { System.out.println("npe"); }
    switch (2) { case ONE: System.out.println("one"); break; case ONE + 1: System.out.println("two"); }
  }
}
