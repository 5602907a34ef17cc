import java.util.Iterator;

abstract class A<E> implements Iterator<E>, java.util.Iterator<E> { }
