class Main {
  static int[] counts = {0, 1, 5, 31, 32, 33, 63, 64, -1};
  public static void main(String[] args) {
    int[] is = {1, -1, 2147483647, -2147483647 - 1, 305419896};
    for (int i = 0; i < is.length; i++) for (int j = 0; j < counts.length; j++) {
      int n = is[i]; int c = counts[j];
      System.out.println((n << c) + " " + (n >> c) + " " + (n >>> c));
      long w = is[i]; long d = counts[j];
      System.out.println((w << c) + " " + (w >> c) + " " + (w >>> d) + " " + (n << d));
    }
    byte b = -1; System.out.println(b >>> 28); b >>>= 1; System.out.println(b); b <<= 7; System.out.println(b);
    short s = -2; s >>= 1; System.out.println(s); char c = 'a'; c <<= 1; System.out.println((int) c);
  }
}
