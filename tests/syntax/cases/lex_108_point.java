// 108 at line 2, javac takes it
class A { int a = 1.5; }
