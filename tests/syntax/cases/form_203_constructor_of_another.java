// 203 at line 5, javac refuses it
class A {
  A() { }
  static class B {
    A() { }
  }
}
