import java.util.List;
import some.where.A;
class A { List<A> list; }
