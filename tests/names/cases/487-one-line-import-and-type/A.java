import java.util.Nope; class A { } class A { }
