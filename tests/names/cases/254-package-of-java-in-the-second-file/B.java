package java.lang;
class B { }
