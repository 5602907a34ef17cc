private class A { } class A { }
