class Main {
  public static void main(String[] args) {
    String a = "x" + 1 + 2L + 'c' + true + null; System.out.println(a); System.out.println(1 + 2 + "s" + 1 + 2); System.out.println("a" == "a");
    String b = "ab"; String d = "a"; d += "b"; System.out.println(b == d); System.out.println(b.length()); System.out.println(b.charAt(1)); String n = null; System.out.println("n" + n); System.out.println(n + "n");
    byte y = -3; short z = 300; System.out.println("" + y + z); System.out.println("" + (char) 66); System.out.println(-9223372036854775808L + "" + -2147483648);
  }

}
