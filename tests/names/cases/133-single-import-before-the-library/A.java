package p;

import p.B.String;

class A {
    String field;
    int number = field.imported;
}
class B {
    static class String {
        int imported;
    }
}
