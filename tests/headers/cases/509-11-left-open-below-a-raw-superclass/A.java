abstract class Text<K> implements Comparable<Text> {
    public abstract int compareTo(Text other);
}
class Last extends Text { }
