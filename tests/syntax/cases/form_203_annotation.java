// 203 at line 2, javac takes it
@Foo class A { }
