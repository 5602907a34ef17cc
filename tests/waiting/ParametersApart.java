class Box<X> {
    X v;
    <B> void set(X x, B b) {
        Box<B> o = new Box<B>();
        o.set("s", b);
        B y = o.v;
    }
}
