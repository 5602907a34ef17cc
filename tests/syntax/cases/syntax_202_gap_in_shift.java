// 202 at line 3, javac refuses it
class A {
  int a = b >> > c;
}
