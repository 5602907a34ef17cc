class Main {
  public static void main(String[] args) {
    boolean[] no = new boolean[100]; int n = 0; for (int i = 2; i < 100; i++) { if (no[i]) continue; n++; for (int j = i * i; j < 100; j += i) no[j] = true; } System.out.println(n);
    int[] a = {5, 2, 9, -1, 7}; for (int i = 0; i < a.length; i++) for (int j = 0; j + 1 < a.length - i; j++) if (a[j] > a[j + 1]) { int t = a[j]; a[j] = a[j + 1]; a[j + 1] = t; } for (int v : a) System.out.println(v);
  }

}
