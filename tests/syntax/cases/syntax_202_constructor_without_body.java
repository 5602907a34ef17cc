// 202 at line 5, javac refuses it
class A {
  int B() { return 1; }
  @Deprecated
  private B(int b);
}
