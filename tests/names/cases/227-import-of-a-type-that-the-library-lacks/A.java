import java.util.LinkedList;
class A { LinkedList list; }
