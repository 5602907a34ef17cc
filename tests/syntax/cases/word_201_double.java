// 201 at line 3, javac takes it

class A { double m() { return 0; } }
