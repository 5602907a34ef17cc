class Box<X> {
    <D extends X> D up(D d) {
        return new Box<D>().up("s");
    }
}
