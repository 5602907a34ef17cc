import java.util.*;

class List {
    int length;
}
class A {
    List list;
    int length() {
        return list.length;
    }
    Set<List> set;
}
