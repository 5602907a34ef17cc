abstract class Shape { abstract int area(); String name() { return "shape"; } int twice() { return 2 * area(); } }
class Square extends Shape { int side; Square(int s) { side = s; } int area() { return side * side; } String name() { return "square of " + side; } }
class Box extends Square { int depth; Box(int s, int d) { super(s); depth = d; } int area() { return super.area() * depth; } }
interface Visitor { int number(int n); int sum(Node a, Node b); }
abstract class Node { abstract int visit(Visitor v); }
class Number extends Node { int n; Number(int n) { this.n = n; } int visit(Visitor v) { return v.number(n); } }
class Sum extends Node { Node a; Node b; Sum(Node a, Node b) { this.a = a; this.b = b; } int visit(Visitor v) { return v.sum(a, b); } }
class Value implements Visitor { public int number(int n) { return n; } public int sum(Node a, Node b) { return a.visit(this) + b.visit(this); } }
class Depth implements Visitor { int deepest; public int number(int n) { return 1; } public int sum(Node a, Node b) { int x = a.visit(this), y = b.visit(this); deepest = x > y ? x + 1 : y + 1; return deepest; } }
class Main {
  public static void main(String[] args) { Shape[] ss = {new Square(3), new Box(2, 5)}; for (Shape s : ss) System.out.println(s.name() + ": " + s.area() + ", " + s.twice()); Node n = new Sum(new Sum(new Number(1), new Number(2)), new Number(39)); System.out.println(n.visit(new Value())); Depth d = new Depth(); System.out.println(n.visit(d) + " " + d.deepest); Shape none = ss[1]; ss[1] = null; try { ss[1].twice(); } catch (NullPointerException e) { System.out.println(none.twice()); } }
}
