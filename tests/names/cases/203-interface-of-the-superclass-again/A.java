interface I { }
interface J extends I { }
class B implements I { }
class A extends B implements J, I { }
