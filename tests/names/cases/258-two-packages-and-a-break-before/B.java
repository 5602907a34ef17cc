package q;
class B { }
