import java.util.*;

interface I<T> { }
class Box<T> { }
class A extends Box { }
class B extends A { }
class C extends Box<List> implements I<Box> { }
