class B {
    int number;
}
class A extends B {
    int number;
    int number() {
        int number = this.number;
        return number;
    }
    static class number { }
    static class C {
        int number;
    }
}
