class Box<T> { Box(T... ts) { } }
class One extends Box {
}
class Two extends Box {
    Two() {
    }
}
