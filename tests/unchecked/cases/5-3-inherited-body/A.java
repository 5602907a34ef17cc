import java.util.*;

interface I { List<String> f(); }
class Up { public List f() { return null; } }
class A extends Up implements I { }
class B extends A { }
