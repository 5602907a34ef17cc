class Main {
  static int sum(int[] a, int from) { int s = 0; for (int i = from; i < a.length; i++) s += a[i] * i; return s; }
  static int deep(int n) { if (n == 0) return 0; return 1 + deep(n - 1); }
  public static void main(String[] args) {
    int[] a = new int[1000]; int total = 0;
    for (int turn = 0; turn < 1000000; turn++) { a[turn % 1000] = turn; total += sum(a, 990) + deep(20); }
    System.out.println(total);
  }
}
