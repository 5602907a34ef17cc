class Main {
  static int[] is = {0, 1, -1, 7, -7, 31, 33, 2147483647, -2147483648, 65536};
  static long[] ls = {0L, 1L, -1L, 7L, -7L, 63L, 65L, 9223372036854775807L, -9223372036854775808L, 4294967296L};
  static void is(int a, int b) {
    System.out.println(a + b);
    System.out.println(a - b);
    System.out.println(a * b);
    System.out.println(a & b);
    System.out.println(a | b);
    System.out.println(a ^ b);
    System.out.println(a < b);
    System.out.println(a > b);
    System.out.println(a <= b);
    System.out.println(a >= b);
    System.out.println(a == b);
    System.out.println(a != b);
    try { System.out.println(a / b); } catch (ArithmeticException e) { System.out.println("by zero"); }
    try { System.out.println(a % b); } catch (ArithmeticException e) { System.out.println("by zero"); }
    System.out.println(a << b); System.out.println(a >> b); System.out.println(a >>> b);
  }
  static void ls(long a, long b) {
    System.out.println(a + b);
    System.out.println(a - b);
    System.out.println(a * b);
    System.out.println(a & b);
    System.out.println(a | b);
    System.out.println(a ^ b);
    System.out.println(a < b);
    System.out.println(a > b);
    System.out.println(a <= b);
    System.out.println(a >= b);
    System.out.println(a == b);
    System.out.println(a != b);
    try { System.out.println(a / b); } catch (ArithmeticException e) { System.out.println("by zero"); }
    try { System.out.println(a % b); } catch (ArithmeticException e) { System.out.println("by zero"); }
    System.out.println(a << b); System.out.println(a >> b); System.out.println(a >>> b);
  }
  public static void main(String[] args) {
    for (int a : is) { for (int b : is) { is(a, b); } }
  }

}
