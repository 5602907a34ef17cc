// 202 at line 3, javac refuses it
interface A {
  default void m() { }
}
