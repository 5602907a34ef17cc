abstract class A extends B<A> implements Comparable<A.M> {
    static class M extends A {
        public int compareTo(A.M m) {
            return 0;
        }
    }
}
class B<T> { }
