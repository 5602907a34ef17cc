class B implements Task {
    void run() { }
}
interface Task {
    void run();
}
