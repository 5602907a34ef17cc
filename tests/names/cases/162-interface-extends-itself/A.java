interface A extends A { }
