class C implements I, J, Nope { }
interface I { class M { } }
interface J { class M { } }
