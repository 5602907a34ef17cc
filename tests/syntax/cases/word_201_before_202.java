// 201 at line 3, javac refuses it
class A { int }
class B { float f; }
