import java.util.ArrayList;
class A {
    Object m() {
        return new ArrayList<? extends Number>();
    }
}
