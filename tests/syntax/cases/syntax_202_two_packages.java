// 202 at line 3, javac refuses it
package a;
package b;
class A { }
