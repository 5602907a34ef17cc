// taken
class A { String s = "a\"b // no comment /* none */"; }
