abstract class A implements Comparable<A>, Iterable<A>,
    java.lang.Comparable<A> { }
