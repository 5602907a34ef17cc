interface I { }
class A implements
    I,
    Comparable<A>,
    I { public int compareTo(A a) { return 0; } }
