class B extends Never { }
