class Main {
  public static void main(String[] args) {
    int x = 3; System.out.println(x > 2 ? "big" : "small"); System.out.println(x > 5 ? 1 : 2L); System.out.println(x > 2 ? 'a' : x); String s = x == 3 ? null : "n"; System.out.println(s);
    System.out.println(x < 0 ? "a" : x < 3 ? "b" : x < 4 ? "c" : "d"); Object o = x > 2 ? (Object) "s" : new Object(); System.out.println(o);
  }

}
