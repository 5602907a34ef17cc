class Main {
  static boolean say(String s, boolean b) { System.out.println(s); return b; }
  public static void main(String[] args) {
    int a = 305419896; int b = -252645136; System.out.println(a & b); System.out.println(a | b); System.out.println(a ^ b); System.out.println(~a); System.out.println(a & ~b | a ^ b);
    long c = 81985529216486895L; long d = -1085102592571150096L; System.out.println(c & d); System.out.println(c | d); System.out.println(c ^ d); System.out.println(~c); System.out.println(c & a); System.out.println(a | d);
    System.out.println(say("l", false) & say("r", true)); System.out.println(say("l", true) | say("r", true)); System.out.println(say("l", true) ^ say("r", true)); boolean x = true; x &= say("and", false); System.out.println(x); x |= say("or", true); System.out.println(x); x ^= say("xor", true); System.out.println(x); System.out.println(!x); System.out.println(!!x);
    byte e = 15; e &= 6; System.out.println(e); e |= -128; System.out.println(e); e ^= 255; System.out.println(e);
  }
}
