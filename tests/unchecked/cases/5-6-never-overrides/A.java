import java.util.*;

interface I<T> { List<String> f(T t); }
abstract class D<T> implements I<T> { public List f(String s) { return null; } }
abstract class E<T> implements I<T> { public ArrayList<String> f(String s) { return null; } }
class K extends D<Integer> { public List<String> f(Integer n) { return null; } }
class L extends E<String> { }
