// taken
class A {
  int m(int a, final int[] b) throws E, F.G {
    int c = 1, d[] = { 1, 2, }, e;
    final List<Map<String, ? super A[]>> f = new ArrayList<Map<String, ? super A[]>>();
    outer: for (int i = 0, j = 1; i < b.length; i++, --j) { if (b[i] == 0) continue outer; else break; }
    for (;;) break;
    for (a = 1, c = 2; a < c; a++) ;
    for (final int x : b) { c += x; }
    while (a > 0) a--;
    do { a <<= 1; } while (a < 100);
    switch (a) { case 1: case 2 + 3: int g = 1; return g; default: break; case 4: }
    try { m(1, null); } catch (final E | F.G h) { throw h; } finally { }
    try { } finally { ; }
    new A().m(a++, new int[][] { { 1 }, { } });
    label: { break label; }
    super.toString();
    return a > b[0] ? c >>> 1 : (int) ~-+c;
  }
}
