// 202 at line 4, javac refuses it
class A {
  Object o = A.class;
  int }
