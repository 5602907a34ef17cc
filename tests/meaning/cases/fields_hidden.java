class A { String s = "A"; static String t = "tA"; String get() { return s; } }
class B extends A { String s = "B"; static String t = "tB"; String both() { return s + ((A) this).s + get() + t + A.t; } }
class Main { public static void main(String[] args) { System.out.println(new B().both()); A a = new B(); System.out.println(a.s + a.t); } }
