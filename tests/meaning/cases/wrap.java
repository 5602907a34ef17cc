class Main {
  public static void main(String[] args) {
    int i = 2147483647; i++; System.out.println(i); long l = 9223372036854775807L; l++; System.out.println(l); short s = -32768; s--; System.out.println(s); byte b = 127; ++b; System.out.println(b); char c = 0; c--; System.out.println((int) c);
    System.out.println(-2147483648 / -1); System.out.println(-2147483648 % -1); System.out.println(1 << 31); System.out.println(1L << 63); System.out.println(-1 >>> 1); System.out.println(-1L >>> 1); System.out.println((byte) 128 >> 1);
  }

}
