// 202 at line 2, javac takes it
@Deprecated package a;
