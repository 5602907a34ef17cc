class A { }
@Deprecated
final
class A { }
