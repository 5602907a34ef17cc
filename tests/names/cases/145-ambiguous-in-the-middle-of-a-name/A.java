interface I {
    interface M { class N { } }
}
interface J {
    class M { }
}
interface K extends I, J { }
class A {
    K known;
    K.M.N field;
}
