class Main {
  static int[] made(int n) { System.out.println("made"); int[] a = new int[n]; for (int i = 0; i < n; i++) a[i] = i * i; return a; }
  public static void main(String[] args) {
    for (int x : made(4)) System.out.println(x);
    int sum = 0; for (int x : made(6)) { if (x == 4) continue; if (x > 10) break; sum += x; } System.out.println(sum);
    int[] a = {1, 2, 3}; for (int x : a) { a[2] = 9; a = new int[5]; System.out.println(x); }
    char[] cs = {'x', 'y'}; for (int c : cs) System.out.println(c); byte[] bs = {-1, 5}; for (long b : bs) System.out.println(b); String[] ss = {"one", null, "three"}; for (String s : ss) System.out.println(s); for (Object o : ss) System.out.println(o);
    int[][] m = {{1, 2}, {}, {3}}; for (int[] r : m) for (int x : r) System.out.println(x); outer: for (int[] r : m) { for (int x : r) { if (x == 2) continue outer; System.out.println("x" + x); } System.out.println("end"); }
    for (int x : new int[0]) System.out.println("none"); int[] none = null; try { for (int x : none) System.out.println(x); } catch (NullPointerException e) { System.out.println("npe"); }
    int[] is = {5, 6}; for (Integer i : is) System.out.println(i); Integer[] js = {7, 8}; for (int j : js) System.out.println(j + 1); Integer[] ks = {1, null}; try { for (int k : ks) System.out.println(k); } catch (NullPointerException e) { System.out.println("unboxed null"); }
  }
}
