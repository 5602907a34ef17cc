package p;

class List {
    int own;
}
