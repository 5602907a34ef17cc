class Box<T extends Number> { }
class A {
    Box<? extends Thread> box;
}
class Thread { }
