// 202 at line 2, javac takes it
@interface A { int value() default 1; }
