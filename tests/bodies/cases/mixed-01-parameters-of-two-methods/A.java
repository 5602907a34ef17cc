class Box<X> {
    X v;
    <B> void set(X x, B b) {
        Box<B> o = new Box<B>();
        o.set(b, "s");
        o.set("s", b);
    }
}
