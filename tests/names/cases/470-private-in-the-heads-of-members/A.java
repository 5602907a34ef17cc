class A {
    private interface P {
        interface Q { }
    }
    private static class R<T> {
        private static class S { }
    }
    static class B<T extends P.Q> extends R<R.S> implements P, A.P.Q { }
}
