abstract class Shape<S extends Shape<S>> implements Comparable<S> {
    abstract S copy();
}
class Dot extends Shape<Dot> {
    Dot copy() { return this; }
    public int compareTo(Dot other) { return 0; }
}
