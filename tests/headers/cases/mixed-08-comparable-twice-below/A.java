class A implements Comparable<A> {
    public int compareTo(A other) { return 0; }
}
class B extends A implements Comparable<A> { }
