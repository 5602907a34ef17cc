package p;

import java.util.Map.Entry;
import p.A.Entry;

class A {
    static class Entry { }
}
