package p;

import java.util.List;

class A {
    List<String> list;
    int size() {
        return list.size();
    }
}
