interface I { class M { } }
interface J { class M { } }
class A implements I, J {
    M first; Nope second;
}
