package p;

class M { }
