// taken
class A { String s = "$"; /* $ */ }
