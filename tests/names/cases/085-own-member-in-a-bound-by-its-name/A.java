class A<T extends A.M> implements Comparable<A.M> {
    static class M { }
    public int compareTo(M m) { return 0; }
}
