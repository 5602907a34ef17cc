// taken
class A {
  Object o = a = b ? c : d ? e : f;
  boolean p = a || b && c | d ^ e & f == g != h < i >= j;
  boolean q = a instanceof B[] && (a instanceof C<?>);
  int r = -+~a + ++b - --c * d++ / e-- % (f);
  int s = (int) +a + (B) (c) + (D<E>) f.g + (H[]) i;
  int t = a << b >> c >>> d;
  Object u = this.a.<B>c(d).e[f][g].h;
  Object v = new A[1][b + 2][], w = new int[] { }, x = new A.B<C>.D(1);
  boolean y = a < b, z = (a < b) == (c > d);
  { a += b -= c *= d /= e %= f &= g |= h ^= i <<= j >>= k >>>= l; }
}
