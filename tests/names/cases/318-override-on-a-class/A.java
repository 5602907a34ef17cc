@Override class A { }
