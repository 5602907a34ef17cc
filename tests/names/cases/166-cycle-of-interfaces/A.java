class X implements K { }
class Y { }
interface I extends J { }
interface J extends K { }
interface K extends I { }
