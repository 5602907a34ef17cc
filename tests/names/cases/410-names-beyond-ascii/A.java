class Größe {
    Größe größe;
    π<Größe> other;
}
class π<τ> {
    τ field;
}
