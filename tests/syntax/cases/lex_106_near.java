// taken
class A { /* a /* b **/ /**/ } // last