@Deprecated @Deprecated class A { }
