interface I {
    String F = "";
}
interface J {
    String F = "";
}
class B implements I, J {
}
class A {
    int m() {
        return B.F.length();
    }
}
