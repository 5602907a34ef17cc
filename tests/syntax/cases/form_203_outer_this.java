// 203 at line 4, javac takes it
class A {
  Object o =
    A.this;
}
