class Main {
  public static void main(String[] args) {
    int i = -5; long l = 3000000000L; short s = -1; byte b = 127; char c = 'x';
    System.out.println(i + l); System.out.println(s + b); System.out.println(c + 1); System.out.println(l >> i); System.out.println(i << 33L);
    System.out.println(b * b); System.out.println(c < s); System.out.println(l == i); System.out.println(-s); System.out.println(~c);
    System.out.println(-(-2147483648)); System.out.println(!(i < 0)); System.out.println(+c); System.out.println(i >>> 28); System.out.println(s >>> 28);
  }

}
