import java.util.*;

interface I { Collection<String> f(); }
class Up { public List<String> f() { return null; } }
class A extends Up implements I { }
