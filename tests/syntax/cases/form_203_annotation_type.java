// 203 at line 2, javac takes it
@interface A { int value(); }
