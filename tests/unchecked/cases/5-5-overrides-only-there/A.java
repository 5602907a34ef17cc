import java.util.*;

interface I<T> { List<String> f(T t); }
abstract class D<T> implements I<T> { public List f(String s) { return null; } }
class K extends D<String> { }
class L extends K { }
