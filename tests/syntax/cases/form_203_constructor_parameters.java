// 203 at line 3, javac takes it
class A {
  <T> A(T t) { }
}
