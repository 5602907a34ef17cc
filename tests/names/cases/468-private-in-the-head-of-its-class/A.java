class A implements Comparable<A.P> {
    private static class P { }
    public int compareTo(A.P other) { return 0; }
}
