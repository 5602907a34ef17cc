interface I {
    class M { }
}
interface J {
    class M { }
}
class A implements I, J {
    java.util.Map<Nope, M> other;
    M field;
}
