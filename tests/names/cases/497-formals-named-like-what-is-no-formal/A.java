abstract class A<one> {
    one one;
    abstract int two(int one, String two);
    abstract <two> void three(two one, int two, String three);
    A(int one) { }
    A(String one) { }
    void four(int a, String A) { }
}
