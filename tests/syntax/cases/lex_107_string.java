// 107 at line 2, javac refuses it
class A { String s = "abc
; }
