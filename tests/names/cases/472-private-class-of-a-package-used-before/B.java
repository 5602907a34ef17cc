private class B { }
