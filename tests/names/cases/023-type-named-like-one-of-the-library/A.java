class Integer {
    int value;
}
class A {
    Integer number;
    int value() {
        return number.value;
    }
    java.lang.Integer boxed() {
        return value();
    }
}
