
// no package here
class B { }
