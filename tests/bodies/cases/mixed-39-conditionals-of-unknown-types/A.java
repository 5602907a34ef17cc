import java.util.List;
class A {
    void m(boolean b, List<? super Integer> y, List<? super Integer> z) {
        List<?> w = b ? y : z;
        List<? super Integer> x = b ? y : z;
    }
}
