import java.util.HashMap;
import java.util.Map;

abstract class A<K, V> implements Map<K, V> {
    Entry<K, V> field;
    static Entry<String, String> other;
}
