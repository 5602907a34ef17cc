interface I { }
interface J extends I, I { }
