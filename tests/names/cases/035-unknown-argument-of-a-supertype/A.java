class A implements
    Comparable<Nope> { public int compareTo(Nope a) { return 0; } }
