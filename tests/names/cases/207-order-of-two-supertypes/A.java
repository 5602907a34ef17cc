interface I { }
class A
    extends I
    implements Nope { }
