class A {
    String<String> text;
}
