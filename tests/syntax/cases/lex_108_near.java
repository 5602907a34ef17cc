// taken
class A { int a = b.c; int[] d = { 1 }; Object o = f(1).e3; }
