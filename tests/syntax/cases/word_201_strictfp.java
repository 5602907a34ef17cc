// 201 at line 3, javac takes it

strictfp class A { }
