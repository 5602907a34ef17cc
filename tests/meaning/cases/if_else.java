class Main {
  public static void main(String[] args) {
    for (int i = 0; i < 5; i++) { if (i == 0) System.out.println("zero"); else if (i == 1) System.out.println("one"); else if (i < 3) { System.out.println("two"); } else System.out.println("many"); if (i > 3); }
  }

}
