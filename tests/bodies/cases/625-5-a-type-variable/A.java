class A {
    <T extends RuntimeException> void m(T t) {
        try {
            throw t;
        } catch (T e) {
            throw e;
        }
    }
}
