class A { B field; }
