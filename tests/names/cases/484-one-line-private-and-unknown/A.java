class B { private static class M { } }
class A {
    B.M first; Nope second;
}
