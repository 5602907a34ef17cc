
class B {
    List<A> list;
}
