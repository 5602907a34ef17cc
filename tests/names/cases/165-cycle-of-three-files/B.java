class B extends C { }
