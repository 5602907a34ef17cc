volatile class A { }
