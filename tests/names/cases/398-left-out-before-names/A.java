class A { Nope field; }
