import java.util.*;
class B {
    Set<A> set;
}
