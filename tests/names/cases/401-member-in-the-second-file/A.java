class A extends B.M { }
