import java.util.HashMap.Entry;
class A { }
