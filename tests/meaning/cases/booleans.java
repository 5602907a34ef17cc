class Main {
  public static void main(String[] args) {
    boolean t = true; boolean f = false;
    System.out.println(t & f); System.out.println(t | f); System.out.println(t ^ t); System.out.println(t == f); System.out.println(t != f); System.out.println(!t);
    t &= f; System.out.println(t); t |= true; System.out.println(t); t ^= true; System.out.println(t);
  }

}
