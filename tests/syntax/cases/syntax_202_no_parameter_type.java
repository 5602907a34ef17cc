// 202 at line 3, javac refuses it
class A {
  void m(a) { }
}
