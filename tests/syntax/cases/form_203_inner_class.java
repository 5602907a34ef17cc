// 203 at line 3, javac takes it
class A {
  class B { }
}
