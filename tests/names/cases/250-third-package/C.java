package P;
class C { }
