class A extends A { } class B { } class B { }
