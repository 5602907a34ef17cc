// 203 at line 3, javac takes it
class A {
  @Foo(1) void m() { }
}
