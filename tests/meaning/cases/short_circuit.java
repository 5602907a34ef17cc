class Main {
  static int n;
  static boolean say(int k, boolean b) { n++; System.out.println(k); return b; }
  public static void main(String[] args) {
    if (say(1, false) && say(2, true) && say(3, true)) { System.out.println("no"); }
    if (say(4, true) || say(5, true)) { System.out.println("yes"); }
    boolean b = say(6, true) && say(7, false) || say(8, true);
    System.out.println(b); System.out.println(n);
  }

}
