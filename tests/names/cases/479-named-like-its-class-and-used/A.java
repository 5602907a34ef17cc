class A {
    static class B {
        A field;
        static class A { int number; }
        int number = field.number;
    }
}
