import java.util.Lists;
class A { }
