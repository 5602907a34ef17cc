interface I { }
interface J { }
class A implements I, J, I { }
