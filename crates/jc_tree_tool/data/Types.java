@Deprecated class A { List<List<int[]>> x; }
