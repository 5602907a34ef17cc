import java.util.List;
import java.util.Map;

class A {
    java.util.List<String> first;
    List<String> second = first;
    java.util.Map.Entry<String, A> third;
    Map.Entry<String, A> fourth = third;
}
