package p; import q.*; interface B<T extends Object> extends C<T> { int[] m(final T x, int... y) throws E; }
