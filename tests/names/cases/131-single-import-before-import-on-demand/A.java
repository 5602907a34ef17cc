package p;

import java.util.*;
import p.B.*;
import p.B.List;

class A {
    List field;
    int number = field.imported;
}
class B {
    static class List {
        int imported;
    }
}
