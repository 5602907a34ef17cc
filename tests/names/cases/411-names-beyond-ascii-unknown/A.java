class Größe {
    Größe known;
    Grösse unknown;
}
