interface I<T> { }
class A implements I<Missing>,
    I<Missing> { }
