package p;

public class A {
    final void m() { }
}
