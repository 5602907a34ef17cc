interface Task {
    void run();
}
class A implements Task {
    public static void run() { }
}
