package p.q;

import java.util.*;

/** Each form of a statement and of an expression. */
public abstract class All<T extends Comparable<? super T> & Runnable, U> extends Base<T[]> implements Runnable, Iterable<U> {
    private static final int[][] TABLE = {{1, 2}, {}, {0x1F, 'a',},};
    @SuppressWarnings({"unchecked", "raw"}) protected T first, rest[];
    static { System.out.println("s" + '\n'); }
    { this.first = null; }
    All(final T first, int... more) throws Exception { this(first); }
    <V> All<T, V> generic(Map<? extends V, ?> map) { return this.<V>generic(map); }
    abstract int none();
    public void run() {
        int i = 0, j[] = new int[3], k = i++ + --i * (i << 2 >>> 1) % 3 - ~i;
        final long big = 12L ^ 3 & 4 | 5;
        outer:
        for (int a = 0, b = 1; a < b && !done || a >= b; a++, b--) { if (a == b) continue outer; else if (a != b) break; else ; }
        for (;;) break;
        for (String s : args) System.out.print(s);
        do i += j[0]; while (i < 10);
        while (true) { i >>>= 1; i = j[1] = 2; }
        switch (i) { case 1: case 2: i = 3; default: break; }
        try { throw new RuntimeException("x"); } catch (final A | B e) { return; } finally { ; }
        Object o = i > 0 ? (Object) new All<String, Integer>(null) : new int[][] {{1}, null};
        boolean is = o instanceof List && ((List<?>) o).size() > 0;
        super.run();
        class_name.field.method(a, b)[0].other = new T[2][];
    }
    public static class Inner { ; }
    interface Nested { int X = 1; void m(); }
}
