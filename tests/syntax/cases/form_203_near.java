// taken
import java.util.*;
import java.util.List;
@Deprecated @SuppressWarnings({ "unchecked", "rawtypes", }) class A<T extends B & C<T>> extends D<T[]> implements E, F<? extends G> {
  static class H { }
  interface I { }
  @Override public String toString() { return "A"; }
  <U> U m(U u, int... more) { return this.<U>m(u); }
  A(int a) { this(); }
  A() { super(); }
  Object o = new B<>(this);
  { }
  static { }
  ;
}
;
