interface I { }
interface J { }
interface K {
    <T extends I & J> void m(T t);
}
class L implements K {
    @Override public <T extends J & I> void m(T t) { }
}
