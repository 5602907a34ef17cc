package javas.java.util;
class C extends javas.java.util.B { }
