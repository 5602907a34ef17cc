class java { }
class A {
    List first;
    java.util.List<String> second;
}
class List { }
