package p;

public class B extends p.A {
    int m() { return 0; }
}
