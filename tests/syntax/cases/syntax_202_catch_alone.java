// 202 at line 4, javac refuses it
class A {
  void m() {
    catch (E e) { }
  }
}
