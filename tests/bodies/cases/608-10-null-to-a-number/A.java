class A {
    Object a = (String) null;
    int b = (int) null;
}
