class Main {
  public static void main(String[] args) {
    Integer i = 1000; int j = i; i++; System.out.println(i + j); i += 5; System.out.println(i); Integer none = null;
    try { int k = none; } catch (NullPointerException e) { System.out.println("npe"); }
    Long l = 5L; Boolean b = true; Character c = 'z'; System.out.println(l + i); System.out.println(b ? c : 'y'); Object o = 3; System.out.println(o); System.out.println(o instanceof Integer); System.out.println((Integer) o + 1);
    boolean t = b && i > 3; System.out.println(t);
  }

}
