class A { }
protected interface I { }
