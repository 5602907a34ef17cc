import java.util.Map;

class A {
    Map<
        Nope,
        Never> field;
}
