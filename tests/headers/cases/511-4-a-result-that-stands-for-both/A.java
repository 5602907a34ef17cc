interface I {
    Object m();
}
interface J {
    String m();
}
interface K extends I, J { }
class Runs {
    public void run() { }
}
class A extends Runs implements Task { }
interface Task {
    void run();
}
