class C {
    static class T {
        int number;
    }
}
class A<T> {
    static class B extends C {
        T field;
        int number = field.number;
    }
}
