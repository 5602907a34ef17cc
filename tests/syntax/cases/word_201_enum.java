// 201 at line 3, javac takes it

enum A { B, C }
