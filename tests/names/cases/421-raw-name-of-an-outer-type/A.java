import java.util.Map.Entry;

class A {
    Entry<String, Object> known;
    Entry<String, Map> unknown;
}
