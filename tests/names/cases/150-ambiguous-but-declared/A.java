interface I {
    class M { }
}
interface J {
    class M { }
}
class A implements I, J {
    static class M { int own; }
    M field;
    int number = field.own;
}
