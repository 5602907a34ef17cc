class A { int x; { System.out.println("init A"); x = 5; } A() { this(3); System.out.println("A() " + x); } A(int k) { System.out.println("A(int) " + x + k); show(); } void show() { System.out.println("A.show"); } }
class B extends A { int y = 7; String s = make("field"); B(boolean b) { super(b ? 1 : 2); System.out.println("B " + y + s); } B() { } void show() { System.out.println("B.show " + y + s); } static String make(String t) { System.out.println("make " + t); return t; } }
class Main { public static void main(String[] args) { new B(true); new B(); new A(); } }
