class X { }
