package p;

class A {
    Integer field;
    int number = field.own;
}
class Integer {
    int own;
}
