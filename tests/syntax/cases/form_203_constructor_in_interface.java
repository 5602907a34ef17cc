// 203 at line 3, javac refuses it
interface I {
  I(int a) { }
}
