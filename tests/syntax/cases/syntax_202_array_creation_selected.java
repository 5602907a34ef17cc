// 202 at line 4, javac refuses it
class A {
  int a = new int[1][0].length + new int[2]
    [;
}
