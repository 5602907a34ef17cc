import java.util.List;
class A { List field; }
class List { }
