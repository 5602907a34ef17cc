import java.util.Comparator;

class A {
    void sort(Comparator<? super Nope[]> order) { }
}
