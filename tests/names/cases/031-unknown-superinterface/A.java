class A implements Comparable<A>, Nope { public int compareTo(A a) { return 0; } }
