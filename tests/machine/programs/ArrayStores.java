/** A store into an array of references tests what the array holds, behind null and range. */
class ArrayStores {
    interface Named { }
    static class Animal { }
    static class Dog extends Animal implements Named { }
    static class Cat extends Animal { }

    static void store(Object[] array, int at, Object value) {
        try {
            array[at] = value;
            Out.line("stored");
        } catch (Throwable e) {
            Out.line(Out.kind(e));
        }
    }

    public static void main(String[] args) {
        Object[] dogs = new Dog[2];
        Object[] animals = new Animal[2];
        Object[] named = new Named[2];
        Object[] any = new Object[2];
        Object[] rows = new int[2][];
        Object[] lists = new Object[2][];
        Object[] values = { null, new Object(), new Animal(), new Dog(), new Cat(), "text", new int[1], new Dog[1], new long[1], new int[1][1] };
        Object[][] arrays = { dogs, animals, named, any, rows, lists, new String[2], new Animal[2][1] };
        for (Object[] array : arrays) {
            for (Object value : values) {
                store(array, 0, value);
            }
        }
        store(dogs, 2, new Cat());
        store(dogs, -1, null);
        store(null, 0, "text");
        store(null, -1, new Cat());
        Out.line(dogs[0] == null);
        Out.line(animals[0] instanceof Cat);
    }
}
