class Main {
  static boolean even(int n) { return n == 0 || odd(n - 1); } static boolean odd(int n) { return n != 0 && even(n - 1); } static int ack(int m, int n) { return m == 0 ? n + 1 : n == 0 ? ack(m - 1, 1) : ack(m - 1, ack(m, n - 1)); }
  static int calls = 0; static void hanoi(int n, char a, char b, char c) { if (n == 0) return; hanoi(n - 1, a, c, b); calls++; if (n == 4) System.out.println(a + " to " + c); hanoi(n - 1, b, a, c); } static String reversed(String s, int at) { return at == s.length() ? "" : reversed(s, at + 1) + s.charAt(at); } static String binary(int n) { return n < 2 ? "" + n : binary(n / 2) + n % 2; }
  public static void main(String[] args) { System.out.println(even(20)); System.out.println(odd(7)); System.out.println(ack(2, 3)); hanoi(4, 'x', 'y', 'z'); System.out.println(calls); System.out.println(reversed("stressed", 0)); System.out.println(binary(37)); }
}
