import java.util.Iterator;
class A implements Iterable<String>, Iterator<String> {
    public Iterator<String> iterator() { return this; }
    public boolean hasNext() { return false; }
    public String next() { return null; }
    public void remove() { }
}
