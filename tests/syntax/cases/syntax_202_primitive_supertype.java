// 202 at line 2, javac takes it
class A extends int { }
