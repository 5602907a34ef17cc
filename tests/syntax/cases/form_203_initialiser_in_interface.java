// 203 at line 4, javac refuses it
interface I {
  class A { { } static { } }
  { }
}
