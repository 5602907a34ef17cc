class Runs {
    void run() { }
}
abstract class A extends Runs implements Task { }
interface Task {
    void run();
}
