class A { int x = 07_1 >>>= 2; }
