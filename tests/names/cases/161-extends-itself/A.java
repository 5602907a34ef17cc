class A extends A { }
