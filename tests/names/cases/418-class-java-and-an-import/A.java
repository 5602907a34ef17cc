package p;

import java.util.List;

class java { }
class A {
    List<java> list;
}
