import java.util.ArrayList.Node;
class A { }
