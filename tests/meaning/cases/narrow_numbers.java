class Main {
  public static void main(String[] args) {
    int[] is = {0, 1, -1, 127, 128, 255, 256, -128, -129, 32767, 32768, 65535, 65536, 2147483647, -2147483647 - 1};
    for (int i = 0; i < is.length; i++) {
      int n = is[i]; byte b = (byte) n; short s = (short) n; char c = (char) n; long l = n;
      System.out.println(b + " " + s + " " + (int) c + " " + l + " " + (int) (byte) c + " " + (int) (char) b + " " + (long) s);
      b++; s--; c++; System.out.println(b + " " + s + " " + (int) c); b += n; s *= 3; c -= 70000; System.out.println(b + " " + s + " " + (int) c);
    }
    long w = 4294967296L + 5L; System.out.println((int) w); System.out.println((byte) w); System.out.println((short) -w); int k = 3; k += w; System.out.println(k); k *= 3000000000L; System.out.println(k); k -= 1L; System.out.println(k);
    char q = 'q'; q += 1; System.out.println(q); System.out.println(q + 1); System.out.println((char) (q + 1)); final int f = 10; byte fb = f; System.out.println(fb); System.out.println(-q); System.out.println(+q); System.out.println(~q);
  }
}
