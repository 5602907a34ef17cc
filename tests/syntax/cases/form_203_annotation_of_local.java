// 203 at line 4, javac takes it
class A {
  void m() {
    @Foo int a = 1;
  }
}
