package p;

import java.util.*;
import p.B.*;

class A {
    Set<B> field;
}
class B {
    static class List { }
}
