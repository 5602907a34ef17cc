class C {
    static class M { }
}
class B extends C {
    private static class M {
        int own;
    }
    M field;
    int number = field.own;
    static class D {
        B.M field;
        C.M other;
    }
}
