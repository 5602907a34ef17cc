// 202 at line 4, javac refuses it
class A { void m() {
  if (a)
    int b = 1;
  }
}
