class Constrain<A, B extends A> { }
class Box<T extends Number> { }
class Main {
    <T, U extends T> void m() {
        Constrain<T, ? super U> c = null;
        Box<? super Integer> box = null;
    }
}
