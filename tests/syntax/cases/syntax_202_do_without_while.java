// 202 at line 5, javac refuses it
class A {
  void m() {
    do { }
  }
}
