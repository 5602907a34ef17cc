import java.lang.*;
import java.util.*;
import java.util.*;
import java.util.Map.*;
import java.lang.*;

class A {
    Entry<String, Object> field;
    Map.Entry<String, Object> same = field;
}
