class A extends B { B field; }
