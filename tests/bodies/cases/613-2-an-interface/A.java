import java.util.List;
class A {
    Object m() {
        return new List<String>();
    }
}
