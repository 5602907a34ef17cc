class B extends B { }
