class A<T extends Object & Nope> { }
