// 202 at line 3, javac refuses it
class A {
  Object o = x -> x;
}
