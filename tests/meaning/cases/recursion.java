class Main {
  static int ack(int m, int n) { return m == 0 ? n + 1 : n == 0 ? ack(m - 1, 1) : ack(m - 1, ack(m, n - 1)); }
  static long fact(int n) { return n < 2 ? 1 : n * fact(n - 1); }
  static boolean even(int n) { return n == 0 || odd(n - 1); } static boolean odd(int n) { return n != 0 && even(n - 1); }
  public static void main(String[] args) {
    System.out.println(ack(2, 3)); System.out.println(fact(20)); System.out.println(fact(21)); System.out.println(even(50));
  }

}
