class A {
    static class java {
        static class lang { }
    }
    java.lang first;
    java.lang.Object second;
}
