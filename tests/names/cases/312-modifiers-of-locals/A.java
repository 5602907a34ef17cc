class A {
    A(final int number) { }
    void method(final int[] all, @SuppressWarnings("unused") final int... more) {
        final int first = 1;
        @SuppressWarnings("unused") final int second = 1;
        @Deprecated int third;
        for (final int one : all) { }
        for (final int at = 0; more.length < at; ) { }
        try {
        } catch (final RuntimeException caught) {
        }
        switch (first) {
            default: final int fourth = 1;
        }
    }
}
