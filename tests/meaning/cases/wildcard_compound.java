// captures
class Main {
  static Comparable<?> c = 1;
  Comparable<?> d = "d";
  public static void main(String[] args) {
    Comparable<?> e = "a";
    e += "b";
    System.out.println(e);
    c += "x";
    System.out.println(c);
    Main m = new Main();
    m.d += "y";
    System.out.println(m.d);
    for (int i = 0; i < 2; i++) { e = i == 0 ? c : m.d; e += "z"; System.out.println(e); }
    Object o = null;
    o += "n";
    System.out.println(o);
  }
}
