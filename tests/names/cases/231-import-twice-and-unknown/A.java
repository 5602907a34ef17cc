import java.util.List;
import java.util.Lists;
import java.util.Lists;
class A { }
