class Main {
  public static void main(String[] args) {
    int m = -2147483647 - 1; int n = 2147483647; int one = 1; int minus = -1;
    System.out.println(m / minus); System.out.println(m % minus); System.out.println(-m); System.out.println(m * minus); System.out.println(m - one); System.out.println(n + one); System.out.println(n * n); System.out.println(m * m); System.out.println(~m); System.out.println(m + m);
    long a = -9223372036854775807L - 1L; long b = 9223372036854775807L; long i = 1L; long k = -1L;
    System.out.println(a / k); System.out.println(a % k); System.out.println(-a); System.out.println(a * k); System.out.println(a - i); System.out.println(b + i); System.out.println(b * b); System.out.println(~a); System.out.println(a + a); System.out.println(a / 10L); System.out.println(a % 10L);
    System.out.println(7 / -2); System.out.println(7 % -2); System.out.println(-7 / 2); System.out.println(-7 % 2); int x = -7; int y = 2; System.out.println(x / y); System.out.println(x % y); System.out.println(x / -y); System.out.println(x % -y);
  }
}
