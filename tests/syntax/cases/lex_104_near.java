// taken
class A { int äβ_1 = 1; }
