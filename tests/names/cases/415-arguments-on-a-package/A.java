class A {
    java<String>.util.List field;
}
