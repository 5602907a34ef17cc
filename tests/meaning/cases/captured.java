class Cell<C> {
    C value;
    Cell<C> next;
    Cell(C value, Cell<C> next) { this.value = value; this.next = next; }
}
class Stack<E> {
    Cell<E> top;
    int count;
    void push(E value) { top = new Cell<E>(value, top); count++; }
    E pop() { E value = top.value; top = top.next; count--; return value; }
    boolean isEmpty() { return top == null; }
}
class Pair<A, B extends Number2> {
    A first;
    B second;
    Pair(A first, B second) { this.first = first; this.second = second; }
    Pair<A, B> again() { return new Pair<A, B>(first, second); }
}
class Number2 { int of; Number2(int of) { this.of = of; } int twice() { return of * 2; } }
class Main {
    static int size(Stack<?> stack) { return stack.count; }
    static <M> void move(Stack<M> from, Stack<M> to) { while (!from.isEmpty()) to.push(from.pop()); }
    static int sum(Stack<? extends Number2> stack) {
        int sum = 0;
        while (!stack.isEmpty()) sum += stack.pop().twice();
        return sum;
    }
    public static void main(String[] args) {
        Stack<String> a = new Stack<String>();
        a.push("one"); a.push("two"); a.push(null);
        Stack<String> b = new Stack<String>();
        move(a, b);
        System.out.println(size(a)); System.out.println(size(b));
        System.out.println(b.pop()); System.out.println(b.pop()); System.out.println(b.pop());
        Stack<Number2> numbers = new Stack<Number2>();
        numbers.push(new Number2(3)); numbers.push(new Number2(4));
        System.out.println(sum(numbers));
        Pair<String, Number2> pair = new Pair<String, Number2>("p", new Number2(5)).again();
        System.out.println(pair.first); System.out.println(pair.second.twice());
        Stack raw = new Stack();
        raw.push("raw"); raw.push(Integer.valueOf(2));
        Stack<?> none = null;
        System.out.println(size(raw));
        System.out.println(raw.pop()); System.out.println(raw.pop());
        Stack<Integer> wrong = raw;
        raw.push("text");
        try { Integer i = wrong.pop(); System.out.println(i); } catch (ClassCastException e) { System.out.println("no integer"); }
        System.out.println(size(none));
    }
}
