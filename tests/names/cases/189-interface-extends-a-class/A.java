class B { }
interface I extends Comparable<I>, B { }
