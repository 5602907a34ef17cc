class A {
    void m() {
        nowhere.go();
        other.place.go();
    }
}
