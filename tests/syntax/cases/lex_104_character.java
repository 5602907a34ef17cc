// 104 at line 2, javac refuses it
class A { int a = 1 # 2; }
