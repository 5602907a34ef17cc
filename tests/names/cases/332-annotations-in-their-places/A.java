@Deprecated @SuppressWarnings({ "unchecked", "rawtypes" })
class A<T> {
    @Deprecated int number, other;
    @SafeVarargs A(T... all) { }
    @SafeVarargs static <U> void first(U... all) { }
    @SuppressWarnings("all") @SafeVarargs @Deprecated public final void second(int number, T... all) { }
    @Override public String toString() { return "A"; }
    @Deprecated interface I { @SuppressWarnings("none") void method(); }
}
