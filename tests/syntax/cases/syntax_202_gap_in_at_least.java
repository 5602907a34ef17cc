// 202 at line 3, javac refuses it
class A {
  boolean a = b > = c;
}
