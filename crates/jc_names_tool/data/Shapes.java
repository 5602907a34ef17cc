package shapes;

import java.util.List;
import java.util.Map.*;

public interface Shapes<T extends Comparable<T>> extends Iterable<T>, java.util.Collection<T> {
    int SIZE = 3, LIMIT = 4;

    <U> T first(U from);

    final class Inner extends Object implements Shapes.Marker {
        private Inner() { }

        static int count;

        { count = 1; }
    }

    interface Marker { }
};

class Plain {
    static { }

    Plain[] all;

    @Deprecated
    protected static class Deep {
        private static final class Deeper { }
    }
}
