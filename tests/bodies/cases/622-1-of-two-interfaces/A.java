interface I {
    int F = 1;
}
interface J {
    int F = 2;
}
class A implements I, J {
    int m() {
        return I.F + J.F + F;
    }
}
