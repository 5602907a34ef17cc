package javas.java.util;
class A { }
