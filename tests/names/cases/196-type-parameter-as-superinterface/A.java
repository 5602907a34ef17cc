class A<T extends Comparable<T>> implements T { }
