class Main {
  public static void main(String[] args) {
    int i = 0; do { i++; if (i == 2) continue; if (i == 5) break; System.out.println(i); } while (i < 10); System.out.println("at " + i);
    do System.out.println("once"); while (false);
    int j = 0; do { j += 2; if (j > 3) continue; System.out.println("j" + j); } while (j < 7); System.out.println(j);
    outer: do { int k = 0; do { k++; if (k == 2) continue outer; System.out.println("k" + k); } while (true); } while (j++ < 9); System.out.println(j);
    int n = 3; while (n-- > 0) System.out.println("n" + n); System.out.println(n); while (n < 0) { n = n + 1; }  System.out.println(n);
    boolean more = true; while (more) { more = false; System.out.println("more"); }
  }
}
