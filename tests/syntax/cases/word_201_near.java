// taken
class A { int floats, doubled, asserted, enumeration, natives; }
