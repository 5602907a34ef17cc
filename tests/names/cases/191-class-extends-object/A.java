abstract class A extends Object implements Comparable<A>, I { }
interface I extends J, Iterable<I> { }
interface J { }
final class B extends C { }
class C { }
