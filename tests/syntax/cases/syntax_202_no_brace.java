// 202, javac refuses it
class A {
  void m() {
