class B<T, T> { T field; }
