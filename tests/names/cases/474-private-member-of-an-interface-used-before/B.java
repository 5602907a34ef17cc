interface B {
    private class M { }
}
