// 203 at line 3, javac refuses it
interface I {
  static
  { }
}
