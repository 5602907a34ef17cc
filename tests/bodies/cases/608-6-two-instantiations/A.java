import java.util.List;
class A {
    Object m(List<String> l) {
        return (List<Integer>) l;
    }
}
