abstract class B<T> { }
class A {
    B<String> m() {
        return new B<>();
    }
}
