package p;

import java.util.List;
import p.A.List;

class A { }
