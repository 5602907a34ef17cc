private class A { } class B extends B { }
