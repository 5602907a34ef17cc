class Main {
  static int say(String s, int n) { System.out.println(s); return n; }
  public static void main(String[] args) {
    int n = 0; for (;;) { n++; if (n > 3) break; } System.out.println(n);
    for (int i = 0, j = 10; i < j; i++, j--) { if (i == 3) continue; System.out.println(i + " " + j); }
    int k; for (k = say("init", 0); say("test", k) < 2; k += say("update", 1)) System.out.println("body"); System.out.println(k);
    for (int i = 5; i > 0; ) { i -= 2; System.out.println(i); }
    a: for (int i = 0; i < 3; i++) { b: for (int j = 0; j < 3; j++) { if (j == 1) continue a; if (i == 2) break a; if (i == 1) break b; System.out.println(i + "," + j); } System.out.println("never"); }
    c: { System.out.println("in"); if (n > 0) break c; System.out.println("not"); } System.out.println("out");
    long s = 0; for (long l = 4294967290L; l < 4294967300L; l++) s += l; System.out.println(s); for (char x = 'a'; x < 'e'; x++) System.out.println(x); for (byte b = 126; b > 0; b++) System.out.println(b);
  }
}
