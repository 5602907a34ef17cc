"""Ordinary Java source of any size: classes with fields, constructors, methods and statements of all usual kinds, and comments."""

HEAD = """package shop;

import java.util.*;
import java.util.List;

"""

CLASS = """/**
 * The account of number %(n)d, with the names of what it holds.
 */
public class Account%(n)d<T extends Comparable<T>> extends Base%(m)d implements Iterable<T>, Kept<String, List<? super T>> {
    private static final int LIMIT = 0x%(n)x;
    protected final Map<String, List<T>> entries = new HashMap<String, List<T>>();
    private int[][] counts = { { 1, 2, 3 }, { }, { %(n)d } };
    volatile long total;

    static {
        Registry.register("account %(n)d", LIMIT + 1);
    }

    public Account%(n)d(final String name, int count, T... items) throws ShopException {
        super(name);
        this.total = count;
        for (T item : items) {
            add(name, item);
        }
    }

    // adds an item under a name
    public boolean add(String name, T item) {
        List<T> list = entries.get(name);
        if (list == null) {
            list = new ArrayList<T>();
            entries.put(name, list);
        } else if (list.size() >= LIMIT || item == null) {
            return false;
        }
        total += name.length() %% 7 == 0 ? 2L : 1L;
        return list.add(item);
    }

    @Override
    public Iterator<T> iterator() {
        final List<T> all = new ArrayList<T>();
        for (Map.Entry<String, List<T>> entry : entries.entrySet()) {
            all.addAll(entry.getValue());
        }
        return all.iterator();
    }

    public <K, V extends K> int count(K[] keys, V value, char kind) {
        int found = 0;
        outer:
        for (int i = 0, j = keys.length; i < j; i++, j--) {
            if (keys[i] == value && keys[j - 1] != null) {
                found = found << 1 | (i & 3) ^ -found;
                continue outer;
            }
            while (found > 0 && !(keys[i] instanceof String)) {
                found >>>= 1;
            }
            do {
                counts[i %% 3] = new int[i + 1];
            } while (counts[i %% 3].length < i);
        }
        switch (kind) {
            case 'a':
            case '\\n':
                found++;
                break;
            default:
                found = (int) (total * (long) found) / 3;
        }
        try {
            Registry.check((Object) this, "count \\"" + found + "\\" of " + kind, found);
        } catch (IllegalStateException | ShopException e) {
            throw new ShopFault(e.getMessage(), %(n)d);
        } finally {
            Registry.leave(Account%(n)d.LIMIT);
        }
        return found;
    }

    static class Line<T> {
        T left, right;

        Line<T> swapped() {
            Line<T> line = new Line<T>();
            line.left = right;
            line.right = this.left;
            return line;
        }
    }
}

"""


def source(size, last=""):
    """A source of so many bytes, with this text as its last lines."""
    parts = [HEAD]
    room = size - len(HEAD) - len(last)
    n = 0
    while True:
        text = CLASS % {"n": n, "m": n % 10}
        if len(text) > room:
            break
        parts.append(text)
        room -= len(text)
        n += 1
    # white space fills what is left
    parts.append((" " * 79 + "\n") * (room // 80) + " " * (room % 80))
    return "".join(parts) + last
