package some.where.else1;

class B {
    static class M { }
}
