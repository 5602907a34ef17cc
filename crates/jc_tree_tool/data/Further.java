   class A { }
