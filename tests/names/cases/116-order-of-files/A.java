class A extends Never { }
