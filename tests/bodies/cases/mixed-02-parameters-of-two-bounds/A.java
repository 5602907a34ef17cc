class Box<X> {
    <D extends X> D up(D d) {
        D e = new Box<D>().up(d);
        return new Box<D>().up("s");
    }
}
