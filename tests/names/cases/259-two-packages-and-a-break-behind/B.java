package q;
class B extends Nope { }
