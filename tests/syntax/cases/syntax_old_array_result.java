// 202 at line 3, javac takes it
abstract class A {
  abstract int h()[];
}
