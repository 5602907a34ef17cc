class A<T, U extends T & Task> { }
interface Task {
    void run();
}
