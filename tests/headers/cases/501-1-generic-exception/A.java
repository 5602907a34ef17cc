class A<T> extends Exception { }
