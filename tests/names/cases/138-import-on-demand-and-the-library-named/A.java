package p;

import java.lang.String;
import p.B.*;

class A {
    String field = "text";
}
class B {
    static class String { }
}
