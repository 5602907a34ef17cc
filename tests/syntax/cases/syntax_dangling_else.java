// taken
class A { void m() { if (a) if (b) c(); else d(); else if (e) f(); else g(); } }
