class Main {
  public static void main(String[] args) {
    for (int i = 0; i < 2; i++) {
      int n; long l; boolean b; char c; String s; int[] a;
      System.out.println(n); System.out.println(l); System.out.println(b); System.out.println(c == 0); System.out.println(s); System.out.println(a == null);
    }
    int late;
    System.out.println(late + 1);
    late += 5;
    System.out.println(late);
  }
}
