// 109 at line 2, javac takes it
class A$B { }
