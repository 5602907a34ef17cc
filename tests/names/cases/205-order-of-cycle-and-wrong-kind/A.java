interface I extends J { }
class A extends I { }
interface J extends I { }
