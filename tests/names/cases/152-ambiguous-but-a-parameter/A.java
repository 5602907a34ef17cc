interface I {
    class M { }
}
interface J {
    class M { }
}
class A<M extends Number> implements I, J {
    M field;
    int number() {
        return field.intValue();
    }
}
