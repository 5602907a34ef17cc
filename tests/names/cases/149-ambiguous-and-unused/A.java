interface I {
    class M { }
    class N { }
}
interface J {
    class M { }
}
class A implements I, J {
    N field;
    I.M other;
}
