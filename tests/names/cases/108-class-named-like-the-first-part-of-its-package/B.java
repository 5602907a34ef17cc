package a.b;

class B {
    static class a {
        static class b {
            static class A {
                int number;
            }
        }
    }
    a.b.A field;
    int number = field.number;
}
