interface Named { String name(); }
interface Sized { int size(); }
class Thing implements Named, Sized {
    String of;
    Thing(String of) { this.of = of; }
    public String name() { return of; }
    public int size() { return of.length(); }
}
class Shelf<T extends Named & Sized> {
    T first;
    T[] row;
    Shelf(T first) { this.first = first; }
    String told() { return first.name(); }
    T get() { return first; }
    int length() { return first.size(); }
}
class OnlyNamed implements Named { public String name() { return "only"; } }
class Source<S> { S make() { return null; } }
class Texts extends Source<String> { String make() { return "made"; } }
class Odd extends Source<String> { }
class Main {
    static <N extends Named> String nameOf(N one) { return one.name(); }
    static String made(Source<String> source) { String text = source.make(); return text; }
    public static void main(String[] args) {
        Shelf<Thing> shelf = new Shelf<Thing>(new Thing("thing"));
        System.out.println(shelf.told());
        System.out.println(shelf.get().size());
        System.out.println(nameOf(shelf.get()));
        System.out.println(shelf.length());
        Shelf raw2 = shelf;
        raw2.first = new OnlyNamed();
        System.out.println(shelf.told());
        try { System.out.println(shelf.length()); } catch (ClassCastException e) { System.out.println("no size"); }
        raw2.first = new Thing("another");
        Thing thing = shelf.first;
        System.out.println(thing.name());
        System.out.println(made(new Texts()));
        System.out.println(made(new Odd()));
        Source raw = new Texts();
        Object any = raw.make();
        System.out.println(any);
        Shelf<Thing> none = new Shelf<Thing>(null);
        try { System.out.println(none.told()); } catch (NullPointerException e) { System.out.println("null"); }
        Thing missing = none.get();
        System.out.println(missing);
    }
}
