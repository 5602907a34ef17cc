// taken
class A { char c = '\u0041'; int \u0061b = '\uuu0042'; }
