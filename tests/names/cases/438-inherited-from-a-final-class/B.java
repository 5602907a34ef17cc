class B
    extends C { }
final class C {
    static class M { }
}
