import java.util.*;

class Up { static List<String> f() { return null; } }
class A extends Up { static List f() { return null; } }
