class Main {
  static int n = 1; int m = 2;
  static void change(int k, int[] a, String s) { k = 9; a[0] = 9; a = new int[1]; a[0] = 7; s += "!"; n = k; }
  int hidden(int m) { int n = m + this.m; { int k = n; n = k * 2; } m++; this.m += m; return n + Main.n; }
  static int sum(int a, int b) { return a - b; }
  public static void main(String[] args) {
    int k = 1; int[] a = {1}; String s = "s"; change(k, a, s); System.out.println(k + " " + a[0] + " " + s + " " + n);
    Main o = new Main(); System.out.println(o.hidden(5)); System.out.println(o.m); int i = 3; System.out.println(sum(i++, i++)); System.out.println(sum(i = 10, i + 1)); int n = 4; System.out.println(n + Main.n); for (int j = 0; j < 2; j++) { int t = j * 2; System.out.println(t); } for (int j = 5; j < 6; j++) { int t; t = j; System.out.println(t); } System.out.println(args.length);
  }
}
