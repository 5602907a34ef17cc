private class A { }
