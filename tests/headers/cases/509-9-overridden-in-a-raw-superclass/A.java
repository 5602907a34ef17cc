class Text<K> implements Comparable<Text> {
    public int compareTo(Text other) { return 0; }
}
class Last extends Text { }
