private class A extends A { }
