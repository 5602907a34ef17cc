class Main {
  public static void main(String[] args) {
    int i = 0; while (i < 3) { System.out.println(i); i++; } do { System.out.println(i--); } while (i > 0);
    for (int j = 0, k = 10; j < k; j += 3, k--) System.out.println(j * k);
    for (;;) { if (i++ > 2) break; }
    System.out.println(i);
    outer: for (int a = 0; a < 4; a++) { for (int b = 0; b < 4; b++) { if (b == 2) continue outer; if (a == 2) break outer; System.out.println(a * 10 + b); } }
    w: while (true) { do { if (i > 8) break w; i++; continue w; } while (true); }
    System.out.println(i);
    lab: { if (i > 0) break lab; System.out.println("never"); }
    do { i--; if (i == 5) continue; } while (i > 3); System.out.println(i);
  }

}
