class Main {
  public static void main(String[] args) {
    long l = 123456789012345L; int i = (int) l; short s = (short) i; byte b = (byte) s; char c = (char) b;
    System.out.println(i); System.out.println(s); System.out.println(b); System.out.println((int) c); System.out.println((byte) 200); System.out.println((char) 65); System.out.println((short) 40000); System.out.println((int) (char) -1); System.out.println((long) (byte) -128);
  }

}
