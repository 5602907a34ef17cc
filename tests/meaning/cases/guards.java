class Box<T> {
    T value;
    Box(T first) { value = first; }
    T get() { return value; }
    void set(T next) { value = next; }
    Box<T> copy() { return new Box<T>(value); }
    static <E> E same(E one) { return one; }
}
class Main {
    public static void main(String[] args) {
        Box<String> box = new Box<String>("one");
        System.out.println(box.get());
        String text = box.value;
        System.out.println(text);
        System.out.println(Box.same(box).copy().get().length());
        Box<Integer> number = new Box<Integer>(41);
        int next = number.get() + 1;
        System.out.println(next);
        number.set(next);
        System.out.println(number.copy().get());
        Box raw = box;
        raw.set(Integer.valueOf(7));
        System.out.println("set");
        Object any = box.get();
        System.out.println(any);
        try { text = box.get(); System.out.println(text); } catch (ClassCastException e) { System.out.println("no result"); }
        try { text = box.value; System.out.println(text); } catch (ClassCastException e) { System.out.println("no field"); }
        try { System.out.println(box.get().length()); } catch (ClassCastException e) { System.out.println("no receiver"); }
        box.set("back");
        System.out.println(box.get());
        raw.value = null;
        System.out.println(box.get());
        System.out.println(box.copy().value);
        Box<?> some = number;
        System.out.println(some.get());
        number.value = null;
        int failed = number.get();
        System.out.println(failed);
    }
}
