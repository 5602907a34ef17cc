class A { int x = Main.say("A.x", 1); { System.out.println("A block"); } A() { System.out.println("A()"); show(); } A(int n) { this(); System.out.println("A(" + n + ")"); } void show() { System.out.println("A.show"); } }
class B extends A { int y = Main.say("B.y", 2); final int k = 5; int z; { z = 8; } B() { super(3); System.out.println("B() " + y + k + z); } B(int a, int b) { this(); y = a * b; System.out.println(y); } void show() { System.out.println("B.show " + y + " " + k + " " + z); } }
class C extends B { C(int n) { super(n, Main.say("arg", 4)); } }
class D { D next; int n; D(int n) { if (n > 0) this.next = new D(n - 1); this.n = n; } int sum() { return next == null ? n : n + next.sum(); } }
class Main {
  static int say(String s, int n) { System.out.println(s); return n; }
  public static void main(String[] args) { new A(); new B(); new B(say("one", 6), say("two", 7)); C c = new C(say("c", 5)); System.out.println(c.x + c.y + c.z); System.out.println(new D(5).sum()); System.out.println(((A) c).x); ((A) c).show(); }
}
