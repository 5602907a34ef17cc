class Main {
  static int x = 1;
  static int change() { x = 100; return 10; }
  static int[] a = {1, 2, 3};
  static int at(int k) { System.out.println("at" + k); return k; }
  static int[] arr() { System.out.println("arr"); return a; }
  public static void main(String[] args) {
    x += change(); System.out.println(x);
    arr()[at(1)] += at(5); System.out.println(a[1]);
    int i = 2; i = i++ + i++; System.out.println(i); i += i++ * 2 + i; System.out.println(i);
    int j = 0; a[j++] = j++; System.out.println(a[0] + "," + j); a[j] = j = 1; System.out.println(a[2] + "," + j);
  }

}
