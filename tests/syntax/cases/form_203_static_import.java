// 203 at line 2, javac takes it
import static java.lang.Math.max;
class A { }
