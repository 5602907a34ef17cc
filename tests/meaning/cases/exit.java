class Main {
  public static void main(String[] args) {
    try { System.out.println("a"); System.exit(3); } finally { System.out.println("never"); }
  }

}
