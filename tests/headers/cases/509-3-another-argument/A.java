class A implements Comparable<A> {
    public int compareTo(String other) { return 0; }
}
