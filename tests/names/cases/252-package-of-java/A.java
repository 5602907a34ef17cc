package java.util;
class A { }
