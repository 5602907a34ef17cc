class A {
    java.util.List<int> field;
}
