import java.util.*;

class Up<T> {
    List<String> f() { return null; }
    T g() { return null; }
    <X> X h() { return null; }
}
class A extends Up<String> {
    List f() { return null; }
    String g() { return null; }
    Object h() { return null; }
}
