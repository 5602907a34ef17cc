interface I {
    String m();
}
interface J {
    Integer m();
}
interface K extends I, J { }
