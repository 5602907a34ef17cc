class Main {
  static long gcd(long a, long b) { return b == 0L ? a : gcd(b, a % b); }
  static int collatz(long n) { int steps = 0; while (n != 1) { if (n % 2 == 0) n /= 2; else n = 3 * n + 1; steps++; } return steps; }
  static boolean prime(int n) { if (n < 2) return false; for (int d = 2; d * d <= n; d++) if (n % d == 0) return false; return true; }
  static int power(int b, int e, int m) { int r = 1; b %= m; while (e > 0) { if ((e & 1) == 1) r = r * b % m; b = b * b % m; e >>= 1; } return r; }
  public static void main(String[] args) { System.out.println(gcd(1071L, 462L)); System.out.println(gcd(1234567890123L, 987654321L)); System.out.println(collatz(27)); for (int i = 0; i < 30; i++) if (prime(i)) System.out.println(i); System.out.println(power(7, 123, 1009)); int a = 0, b = 1; for (int i = 0; i < 50; i++) { int c = a + b; a = b; b = c; } System.out.println(a); }
}
