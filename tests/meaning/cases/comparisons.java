class Main {
  static void all(int a, int b) { System.out.println((a < b) + " " + (a <= b) + " " + (a > b) + " " + (a >= b) + " " + (a == b) + " " + (a != b)); }
  static void all(long a, long b) { System.out.println((a < b) + " " + (a <= b) + " " + (a > b) + " " + (a >= b) + " " + (a == b) + " " + (a != b)); }
  public static void main(String[] args) {
    int[] is = {0, -1, 1, 2147483647, -2147483647 - 1};
    for (int i = 0; i < is.length; i++) for (int j = 0; j < is.length; j++) { all(is[i], is[j]); long p = is[i]; long q = is[j]; all(p * 4294967296L, q * 4294967296L); all(p, q); }
    Object o = new Object(); Object p = o; Object q = new Object(); System.out.println(o == p); System.out.println(o != p); System.out.println(o == q); System.out.println(o == null); System.out.println(null == null); boolean t = true; boolean f = false; System.out.println(t == f); System.out.println(t != f); System.out.println('a' < 98); System.out.println('a' == 97L);
    int[] a = new int[1]; int[] b = a; System.out.println(a == b); System.out.println(a != new int[1]);
  }
}
