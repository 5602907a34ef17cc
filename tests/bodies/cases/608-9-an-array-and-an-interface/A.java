interface I { }
class A {
    Object m(I i) {
        return (int[]) i;
    }
}
