class Many<M> { Object of(M m) { return Main.all(m); } }
class Main {
  static <U> Object all(U... us) { return us; }
  static int count(String first, Object... others) { return others.length; }
  public static void main(String[] args) {
    System.out.println(new Many<String>().of("s") instanceof String[]);
    System.out.println(new Many<String>().of("s") instanceof Object[]);
    System.out.println(count("a"));
    System.out.println(count("a", "b"));
    System.out.println(count("a", "b", 3));
    Object[] given = {"x", "y", "z"};
    System.out.println(count("a", given));
  }
}
