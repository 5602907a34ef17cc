import java.util.HashMap;

class A {
    HashMap.Entry<String, String> field;
}
