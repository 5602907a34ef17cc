class Override { }
class A {
    @Override public String toString() {
        return "A";
    }
}
