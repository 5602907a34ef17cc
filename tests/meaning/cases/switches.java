class Main {
  static String name(int n) {
    String s = "";
    switch (n) { case 1: s += "one"; case 2: s += "two"; break; default: s += "other"; case 7: s += "seven"; return s; case -5: s += "minus"; }
    return s + "!";
  }
  public static void main(String[] args) {
    for (int i = -6; i < 9; i++) System.out.println(name(i));
    switch ('b') { case 'a': System.out.println("a"); case 'b': System.out.println("b"); case 'c': System.out.println("c"); }
    switch (3) { case 1: System.out.println("no"); }
    for (int i = 0; i < 3; i++) { switch (i) { case 1: continue; default: System.out.println(i); } }
    byte k = 2; switch (k) { case 2: int v = 5; System.out.println(v); break; default: v = 6; System.out.println(v); }
  }

}
