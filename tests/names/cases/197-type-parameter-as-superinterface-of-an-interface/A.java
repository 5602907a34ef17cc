interface A<T extends Comparable<T>> extends T { }
