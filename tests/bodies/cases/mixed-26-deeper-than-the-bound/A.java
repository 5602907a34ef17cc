class N<Z> { }
class C<X> extends N<N<? super C<C<X>>>> {
    N<? super C<Integer>> cast(C<Integer> c) {
        return c;
    }
}
