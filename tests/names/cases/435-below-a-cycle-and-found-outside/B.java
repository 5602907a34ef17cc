class B extends C { }
class C extends B { }
