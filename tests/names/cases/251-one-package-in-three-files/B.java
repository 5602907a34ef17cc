/* of the same package */ package javas . java . util;
class B extends A { }
