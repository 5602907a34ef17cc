// 201 at line 4, javac takes it

class A { Object o = A.class;
  double d; }
