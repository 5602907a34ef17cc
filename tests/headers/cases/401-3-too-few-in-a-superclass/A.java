class Pair<A, B> { }
class Twin extends Pair<String> { }
