interface Order<A> { int compare(A a, A b); }
class ByLength implements Order<String> {
    public int compare(String a, String b) { return a.length() - b.length(); }
}
class Holder<H> {
    H kept;
    void keep(H next) { kept = next; }
}
class Texts extends Holder<String> {
    int count;
    void keep(String next) { count = count + next.length(); kept = next; }
}
class Numbers extends Holder<Integer> { }
class Main {
    static <L> L least(Order<L> order, L a, L b) { return order.compare(a, b) <= 0 ? a : b; }
    static void keepIn(Holder holder, Object next) {
        try { holder.keep(next); System.out.println("kept"); } catch (ClassCastException e) { System.out.println("not kept"); }
    }
    public static void main(String[] args) {
        Order<String> order = new ByLength();
        System.out.println(order.compare("a", "bbb"));
        System.out.println(least(order, "long", "short text"));
        Texts texts = new Texts();
        Holder<String> as = texts;
        as.keep("four");
        System.out.println(texts.count);
        System.out.println(as.kept);
        keepIn(texts, "more");
        keepIn(texts, Integer.valueOf(1));
        System.out.println(texts.count);
        keepIn(new Numbers(), "not a number");
        Order raw = order;
        try { System.out.println(raw.compare("a", Integer.valueOf(2))); } catch (ClassCastException e) { System.out.println("no order"); }
        try { as.keep(null); } catch (NullPointerException e) { System.out.println("null came in"); }
        Numbers numbers = new Numbers();
        keepIn(numbers, "text");
        Object any = numbers.kept;
        System.out.println(any);
        int n = numbers.kept;
        System.out.println(n);
    }
}
