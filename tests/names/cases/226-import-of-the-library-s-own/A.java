import java.lang.Object;
import java.lang.String;
import java.lang.*;

class A {
    String field;
    Object other = field;
}
