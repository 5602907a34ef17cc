abstract class Text<K> implements Comparable<Text> {
    public abstract int compareTo(Text other);
}
class Last extends Text {
    public int compareTo(Text other) { return 0; }
}
