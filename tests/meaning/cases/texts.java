class P { public String toString() { System.out.println("P.toString"); return "P"; } }
class Main {
  static final String D = "a";
  static String say(String s) { System.out.println("say " + s); return s; }
  static int n(int k) { System.out.println("n" + k); return k; }
  public static void main(String[] args) {
    String a = "ab"; String b = "ab"; System.out.println(a == b); System.out.println("a" + "b" == a); String c = "a"; c += "b"; System.out.println(c == a); System.out.println(D + "b" == a); System.out.println(1 + 2 + "x" + 1 + 2); System.out.println('a' + 'b' + "c"); System.out.println("c" + 'a' + 'b'); System.out.println("" + true + null + 5L + -3); char[] cs = {'h', 'i'}; String e = "x" + new String(cs); System.out.println(e); System.out.println(e.length() + e.charAt(1)); String s = null; s = s + s; System.out.println(s); System.out.println(say("l") + n(1) + say("r") + n(2)); int i = 1; String t = i + (i = 5) + "" + i + i++ + i; System.out.println(t); t += i; t += 'c'; t += 4 + 4; System.out.println(t); String[] ts = {"q"}; int k = 0; ts[k++] += k; System.out.println(ts[0]); System.out.println("tab\tquote\"slash\\"); System.out.println("".length()); Object o = "obj"; System.out.println(o + "!" + (o == "obj"));
  }
}
