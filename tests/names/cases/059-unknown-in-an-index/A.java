class A {
    int method(int[] all, Object value) {
        return all[all[(Nope) value] + 1];
    }
}
