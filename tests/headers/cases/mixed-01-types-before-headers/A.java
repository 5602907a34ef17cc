class Box<T extends Number> { }
class A implements Task {
    void m() { }
    void m() { }
}
class B {
    Box<String> box;
}
interface Task {
    void run();
}
