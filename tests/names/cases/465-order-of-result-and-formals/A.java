interface I { class M { } } interface J { class M { } }
class A implements I, J {
    M method(Nope one) throws Never { return null; }
}
