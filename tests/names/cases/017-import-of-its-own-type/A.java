package p;

import java.util.List;
import java.util.List;
import p.A;

class A {
    List<A> list;
}
