class Main {
  static int zero = 0; static long none = 0L; static int count = 0;
  static int next() { count++; return count; }
  public static void main(String[] args) {
    try { System.out.println(1 / zero); } catch (ArithmeticException e) { System.out.println("div"); }
    try { System.out.println(1 % zero); } catch (ArithmeticException e) { System.out.println("rem"); }
    try { System.out.println(1L / none); } catch (ArithmeticException e) { System.out.println("ldiv"); }
    try { System.out.println(5 % none); } catch (ArithmeticException e) { System.out.println("lrem"); }
    int x = 7; try { x /= zero; } catch (ArithmeticException e) { System.out.println("compound"); } System.out.println(x); try { x %= none; } catch (ArithmeticException e) { System.out.println("compound2"); } System.out.println(x);
    int[] a = {1, 2, 3, 4}; try { a[next()] /= next() - 2; } catch (ArithmeticException e) { System.out.println("element"); } System.out.println(a[1] + " " + count); try { a[next()] = next() / zero; } catch (ArithmeticException e) { System.out.println("value"); } System.out.println(a[3] + " " + count);
    Main.zero = 3; System.out.println(7 / zero); System.out.println(1 / (count - count));
  }
}
