class A {
    static class java {
        static class util {
            static class List<T> {
                int length;
            }
        }
    }
    java.util.List<String> field;
    int length = field.length;
}
