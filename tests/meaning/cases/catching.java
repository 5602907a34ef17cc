class E1 extends Exception { E1(String m) { super(m); } } class E2 extends E1 { E2(String m) { super(m); } } class E3 extends RuntimeException { int code; E3(int c) { super("e3"); code = c; } }
class Main {
  static void f(int k) throws Exception { if (k == 0) throw new E1("one"); if (k == 1) throw new E2("two"); if (k == 2) throw new E3(7); if (k == 3) { Object o = "s"; Integer i = (Integer) o; } if (k == 4) throw new Error("err"); System.out.println("fine " + k); }
  static String g(int k) { try { f(k); return "none"; } catch (E2 e) { return "E2 " + e.getMessage(); } catch (E1 e) { return "E1 " + e.getMessage(); } catch (E3 e) { return "E3 " + e.code; } catch (RuntimeException | Error e) { return "other"; } catch (Exception e) { return "exception"; } }
  static int h(int k) { try { try { f(k); } catch (E1 e) { System.out.println("again"); throw e; } catch (RuntimeException e) { e = new E3(k); throw e; } } catch (E3 e) { return e.code; } catch (Exception e) { return e.getMessage().length(); } return 0; }
  public static void main(String[] args) throws Exception {
    for (int k = 0; k < 6; k++) System.out.println(g(k)); for (int k = 0; k < 4; k++) System.out.println(h(k)); try { try { f(0); } catch (RuntimeException e) { System.out.println("no"); } } catch (Exception e) { System.out.println(e.getMessage()); } Exception kept = null; try { f(1); } catch (Exception e) { kept = e; } System.out.println(kept instanceof E2); try { throw kept; } catch (E1 e) { System.out.println(e == kept); } try { f(4); } catch (Throwable e) { System.out.println(e.getMessage()); } f(1);
  }
}
