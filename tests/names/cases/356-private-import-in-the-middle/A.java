package p;

import java.util.List;
import p.B.M.N;

class A {
    N field;
}
