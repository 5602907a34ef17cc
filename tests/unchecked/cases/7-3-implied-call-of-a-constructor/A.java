import java.util.*;

class Box<E> { Box(E... es) { } }
class A extends Box<List<String>> {
}
class B extends Box<List<String>> {
    B() {
    }
    B(int n) {
        super();
    }
    B(List<String>[] lists) {
        super(lists);
    }
}
class C extends Box<String> {
}
