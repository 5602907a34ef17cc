class Box<T extends Number> { }
class A {
    Box<? extends Task> box;
    Box<? extends Integer> others;
}
interface Task {
    void run();
}
