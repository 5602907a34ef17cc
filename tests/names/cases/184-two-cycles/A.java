class X extends Object { }
class A extends B { }
class C extends D { }
