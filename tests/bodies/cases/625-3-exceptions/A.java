class A {
    <T extends RuntimeException> void m(T t) {
        try {
            if (t == null) throw null;
            throw t;
        } catch (NullPointerException | IllegalArgumentException e) {
            throw e;
        } catch (final RuntimeException e) {
            throw (e);
        }
    }
}
