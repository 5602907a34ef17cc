// 202 at line 2, javac refuses it
void m() { }
