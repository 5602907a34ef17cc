package p;

import java.util.*;
import p.B.*;

class A {
    List<String> field;
}
class B {
    private static class List { }
}
