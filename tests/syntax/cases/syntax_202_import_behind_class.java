// 202 at line 3, javac refuses it
class A { }
import b.C;
