class T { int f; static int s = 4; int m() { return 1; } static int k() { return 2; } }
class Main {
  static T none() { System.out.println("none"); return null; }
  static int say(String s) { System.out.println(s); return 0; }
  public static void main(String[] args) {
    int[] a = null; T t = null; Integer i = null; Boolean b = null; String s = null; int n = 0;
    try { n = a.length; } catch (NullPointerException e) { n++; } try { n = a[0]; } catch (NullPointerException e) { n++; } try { a[say("index")] = say("value"); } catch (NullPointerException e) { n++; } try { a[0]++; } catch (NullPointerException e) { n++; } try { t.f = say("right"); } catch (NullPointerException e) { n++; } try { t.f += say("not"); } catch (NullPointerException e) { n++; } try { t.m(); } catch (NullPointerException e) { n++; }
    System.out.println(n); try { i++; } catch (NullPointerException e) { n++; } try { if (b) n = 0; } catch (NullPointerException e) { n++; } try { n = i + 1; } catch (NullPointerException e) { n++; } try { throw null; } catch (NullPointerException e) { n++; } try { s.length(); } catch (NullPointerException e) { n++; } try { none().f = say("assigned"); } catch (NullPointerException e) { n++; }
    System.out.println(n); System.out.println(none().s); System.out.println(none().k()); none().s = 6; System.out.println(T.s); System.out.println("text " + s + null + t); s += "x"; System.out.println(s); RuntimeException r = null; try { throw r; } catch (NullPointerException e) { System.out.println("thrown null"); } System.out.println((T) null == (Object) null); Object o = (Object) a; System.out.println(o instanceof int[]); System.out.println(t == null ? "is" : "not"); while (b == null) b = false; System.out.println(b); t.m();
  }
}
