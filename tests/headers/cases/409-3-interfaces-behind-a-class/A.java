class A<T extends Number & Task & Comparable<T>, U extends T> { }
interface Task {
    void run();
}
