class A<java> {
    java.util.List<String> field;
}
