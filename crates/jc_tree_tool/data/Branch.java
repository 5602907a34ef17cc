class A { void m() { if (a) b(); } }
