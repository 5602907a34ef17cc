package p;

import p.B.*;

class A {
    String field;
}
class B {
    static class String { }
}
