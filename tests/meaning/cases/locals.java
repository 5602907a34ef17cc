class Main {
  static int sum(int n) {
    int sum = 0;
    for (int i = 0; i < n; i++) {
      int x; boolean b; String s; long l;
      if (i % 2 == 0) { x = i; b = true; s = "e"; l = 3L; } else { x = -i; b = false; s = null; l = x; }
      sum += x;
      System.out.println(s + b + x + l);
    }
    switch (n) { case 1: int y; default: y = 7; sum += y; }
    return sum;
  }
  static int deep(int n) { int below; if (n > 0) below = deep(n - 1); else below = 1; int here; here = below * 2; return here; }
  public static void main(String[] args) {
    System.out.println(sum(3));
    System.out.println(deep(5));
    try { int z; z = 1 / (args.length - args.length); System.out.println(z); } catch (ArithmeticException e) { int z; z = 8; System.out.println(z); }
  }
}
