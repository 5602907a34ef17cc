// taken
class A {
  ; int a, b[] = { 1, 2, }, c = f(), d = (int) +1 - -1;
  boolean e = b >= c, f = a < b == c > d;
  int g = b >>> c >> d, h = b >>> -c;
  void m(int a, final int... b) throws C, D { ; }
  int[] n() { if (a) ; else { } for (;;) break; }
  void o() { label: for (int a = 0; ; ) { continue label; } }
  void p() { try { } finally { } do ; while (a); }
  A() { this(1); }
  A(int a) { super(); switch (a) { } switch (b) { case 1: default: } }
}
