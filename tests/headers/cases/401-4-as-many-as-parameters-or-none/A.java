class Pair<A, B> { }
class A {
    Pair<String, Integer> both;
    Pair raw;
}
