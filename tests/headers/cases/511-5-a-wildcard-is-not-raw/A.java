class G<T> { }
class H<T> extends G<T> { }
class A {
    public H<?> m() { return null; }
}
interface I {
    G<String> m();
}
abstract class K extends A implements I { }
