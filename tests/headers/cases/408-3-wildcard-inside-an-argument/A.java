import java.util.ArrayList;
import java.util.List;
class A extends ArrayList<List<?>> { }
