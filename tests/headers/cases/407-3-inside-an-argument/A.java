class A<T extends Comparable<T>, U extends T> { }
