abstract class A<T, U extends T> extends B<T> implements Comparable<U>, Iterable<A<T, U>> { }
class B<T> { }
