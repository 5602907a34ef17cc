interface I<T> { }
class A implements I<Object>,
    I<Missing> { }
