class Main {
  public static void main(String[] args) {
    Object[] os = new String[2]; os[0] = "x"; System.out.println(os[0]);
    try { os[1] = new Object(); } catch (ArrayStoreException e) { System.out.println("store"); }
    os[1] = null; System.out.println(os[1]);
    int[][] m = new int[2][3]; m[1][2] = 7; System.out.println(m[1][2] + m[0].length + m.length);
    int[][] n = new int[2][]; System.out.println(n[0] == null);
    try { int[] z = new int[-1]; } catch (NegativeArraySizeException e) { System.out.println("negative"); }
    long[] ls = new long[1]; boolean[] bs = new boolean[1]; char[] cs = {'q'}; System.out.println(ls[0]); System.out.println(bs[0]); System.out.println(cs[0]);
    int[] lit = {1, 2, 3}; int sum = 0; for (int v : lit) sum += v; System.out.println(sum);
    Object o = lit; System.out.println(o instanceof int[]); System.out.println(o instanceof Object[]); System.out.println(os instanceof String[]);
  }

}
