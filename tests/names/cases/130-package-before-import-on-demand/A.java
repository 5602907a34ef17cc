package p;

import java.util.*;

class A {
    List field;
    int number = field.own;
    Set<String> other;
}
