class A<M> extends B {
    static class M { }
    <M extends Number> int method(M it) {
        M local = it;
        return local.intValue();
    }
}
class B {
    static class M { }
}
