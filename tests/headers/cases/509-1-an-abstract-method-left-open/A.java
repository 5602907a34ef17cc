class A implements Task { }
interface Task {
    void run();
}
