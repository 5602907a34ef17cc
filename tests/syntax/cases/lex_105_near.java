// taken
class A { int a = 0x7f_ff, b = 0b1010, c = 017, d = 1_000, e = 2147483647; long f = 0xFFFFFFFFFFFFFFFFL; char g = '\377', h = '\''; }
