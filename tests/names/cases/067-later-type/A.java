class A extends B<C> {
    C field;
}
class B<T> { }
class C { }
