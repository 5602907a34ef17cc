@SafeVarargs class A { }
