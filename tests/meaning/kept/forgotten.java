// captures
class S { }
class Box<T> { T t; Box(T t) { this.t = t; } }
class Main {
  static void say(boolean b) { System.out.println(b ? "Y" : "N"); }
  static <Q> boolean is(Box<Q> b, boolean answer) { return answer; }
  public static void main(String[] args) {
    Box<?> box = new Box<S>(new S());
    for (int i = 0; i < 2; i++) { boolean all = i == 0 && is(box, true); say(new CAP0[] {} instanceof S[]); }
    System.out.println("-");
    for (int i = 0; i < 2; i++) { boolean any = i == 1 || is(box, false); say(new CAP1[] {} instanceof S[]); }
    System.out.println("-");
    for (int i = 0; i < 2; i++) { boolean one = i == 0 ? is(box, true) : i == 1; say(new CAP2[] {} instanceof S[]); }
    System.out.println("-");
    for (int i = 0; i < 2; i++) { if (i == 0) { is(box, true); } say(new CAP3[] {} instanceof S[]); }
  }
}
