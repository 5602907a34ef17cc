class A {
    @Override
    public boolean equals(A other) { return false; }
}
