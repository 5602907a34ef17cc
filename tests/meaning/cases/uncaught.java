class Bad extends RuntimeException { }
class Main {
  static void deep(int n) { if (n == 0) throw new Bad(); deep(n - 1); }
  public static void main(String[] args) { System.out.println("before"); deep(5); }
}
