class A<T extends U, U extends Comparable<U>> {
    <V extends W, W extends T> V method(W w) {
        return null;
    }
}
