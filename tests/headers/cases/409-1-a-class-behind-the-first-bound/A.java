class A<T extends Task & Number> { }
interface Task {
    void run();
}
