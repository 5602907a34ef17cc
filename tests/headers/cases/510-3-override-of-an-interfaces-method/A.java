class A implements Task {
    @Override
    public void run() { }
    @Override
    public boolean equals(Object other) { return false; }
}
interface Task {
    void run();
}
