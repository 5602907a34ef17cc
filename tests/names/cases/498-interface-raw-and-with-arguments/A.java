abstract class A implements Comparable,
    Comparable<A> { }
