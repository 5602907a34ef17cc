import some.where.*;
class A { }
