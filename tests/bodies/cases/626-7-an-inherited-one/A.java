class B {
    int a = 1;
}
class A extends B {
    int b = a;
    int c = b;
}
