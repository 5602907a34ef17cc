class Loud { public String toString() { System.out.println("loud"); return null; } }
class Ä { }
class Main {
  static String say(String s) { System.out.println("say " + s); return s; }
  public static void main(String[] args) {
    String s = null;
    System.out.println(s + new Loud() + 'c' + 1 + true + 2L);
    s += new Loud();
    System.out.println(s);
    System.out.println(say("a") + say(null) + say("b"));
    String name = new Ä().toString();
    System.out.println((int) name.charAt(0));
    System.out.println(name.charAt(1) == '@');
  }
}
