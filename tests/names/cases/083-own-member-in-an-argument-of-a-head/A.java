class A implements Comparable<M> {
    static class M { }
    public int compareTo(M m) { return 0; }
}
