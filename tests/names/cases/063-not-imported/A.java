class A {
    List<String> list;
}
