public abstract class A {
    private static final class B { }
    protected static abstract class C { }
    public static class D { }
    static private interface I { }
    protected abstract interface J { }
    interface K {
        public static final class E { }
        static abstract class F { }
        public static abstract interface L { }
    }
}
final class G { }
abstract interface H { }
