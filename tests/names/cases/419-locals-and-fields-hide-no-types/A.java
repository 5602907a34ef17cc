class A {
    int java;
    A A;
    String String(String String) {
        String text = String;
        int A = 1;
        A other = new A();
        java.util.List<String> list = null;
        return text;
    }
}
