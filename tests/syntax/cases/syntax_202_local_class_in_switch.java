// 202 at line 4, javac takes it
class A { void m() {
  switch (a) { case 1:
    class B { }
  } }
}
