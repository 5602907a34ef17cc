// taken
package a.b;
public abstract class A<T> {
  protected static final int B = 1, C[] = { 2 };
  private transient volatile int d;
  public abstract <U extends Object & Comparable<U>> U e(T[]... f) throws G;
  public A() { }
  private A(int a) { super(); ; }
  static interface I<X> extends J<X>, K { int L = 1; void m(); }
  static final class N implements I<Integer> { public void m() { } }
}
interface O { abstract class P { } }
