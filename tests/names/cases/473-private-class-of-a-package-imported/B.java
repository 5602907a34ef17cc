package p;

private class B { }
