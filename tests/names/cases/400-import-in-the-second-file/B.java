import java.util.Nope;
class B extends B { }
