abstract class A implements Comparable<A>, Comparable<Object> { }
