class A {
    java.util.ArrayList.Node<String> field;
}
