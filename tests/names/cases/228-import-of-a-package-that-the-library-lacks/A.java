import java.math.*;
class A { }
