interface I {
    int F = 1;
    int G = 1;
}
interface J extends I {
    int G = 2;
}
class B implements I {
}
class A extends B implements J {
    static int m(A a) {
        return F + a.F + J.G;
    }
}
