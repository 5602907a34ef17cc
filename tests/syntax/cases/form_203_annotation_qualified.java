// 203 at line 3, javac takes it
class A {
  @java.lang.Override void m() { }
}
