static class A { }
