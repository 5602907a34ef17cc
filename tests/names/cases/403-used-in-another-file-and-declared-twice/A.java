class A extends X { X field; }
