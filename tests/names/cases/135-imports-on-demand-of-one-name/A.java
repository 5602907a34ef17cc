package p;

import java.util.*;
import p.B.*;

class A {
    List field;
}
class B {
    static class List { }
}
