import java.util.*;

class A {
    Map<List<Map.Entry<String, A>>, ? super Set<? extends A[]>> known;
    Map<List<Map.Entri<String, A>>, ? super Set<? extends A[]>> unknown;
}
