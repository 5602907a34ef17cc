class Main {
  static int f(String s) { System.out.println(s); return 0; }
  static int[] none() { System.out.println("none"); return null; }
  public static void main(String[] args) {
    try { none()[f("index")] = f("right"); } catch (NullPointerException e) { System.out.println("npe"); }
    int[] a = new int[1];
    try { a[1] = f("right2"); } catch (ArrayIndexOutOfBoundsException e) { System.out.println("bounds"); }
    try { a[1] += f("right3"); } catch (ArrayIndexOutOfBoundsException e) { System.out.println("bounds2"); }
    try { int z = f("l") / f("r"); } catch (ArithmeticException e) { System.out.println("zero"); }
  }

}
