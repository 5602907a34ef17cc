class Main {
  public static void main(String[] args) {
    byte b = 120; b += 10; System.out.println(b); b -= 1000; System.out.println(b); b *= 3; System.out.println(b); b /= 2; System.out.println(b); b <<= 3; System.out.println(b); b >>= 1; System.out.println(b); b >>>= 1; System.out.println(b);
    char c = 'a'; c += 1; System.out.println(c); c++; System.out.println(c); c--; --c; System.out.println(c);
    int i = 5; i += 3L; System.out.println(i); i <<= 40; System.out.println(i); i %= 7; System.out.println(i); i ^= -1; System.out.println(i); i |= 64; System.out.println(i); i &= 255; System.out.println(i);
    long l = 1; l += i; l <<= 62; System.out.println(l); l++; System.out.println(l--); System.out.println(++l);
    String s = "a"; s += 1; s += 'b'; s += null; s += 2L; s += true; System.out.println(s);
  }

}
