// 105 at line 2, javac refuses it
class A { char c = ''; }
