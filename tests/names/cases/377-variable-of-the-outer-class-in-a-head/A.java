class A<T> {
    static class B implements Comparable<T> { public int compareTo(T it) { return 0; } }
}
