class Runs {
    public void run() { }
}
class A extends Runs implements Task { }
abstract class B implements Task { }
interface Task {
    void run();
}
