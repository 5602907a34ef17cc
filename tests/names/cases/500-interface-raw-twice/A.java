interface A extends Comparable,
    Comparable { }
