@SuppressWarnings
class A {
    @Deprecated(since = 1) int number;
}
