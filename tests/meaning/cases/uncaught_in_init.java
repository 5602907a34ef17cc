class Main {
  static int n = say("first"); static int[] a = new int[n - 6]; static int say(String s) { System.out.println(s); return 5; }
  public static void main(String[] args) { System.out.println("never"); }
}
