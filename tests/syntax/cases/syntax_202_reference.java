// 202 at line 3, javac refuses it
class A {
  Object o = A::new;
}
