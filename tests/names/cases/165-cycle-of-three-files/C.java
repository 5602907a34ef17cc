class C extends A { }
