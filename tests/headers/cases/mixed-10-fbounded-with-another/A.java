abstract class Shape<S extends Shape<S>> { }
class Dot extends Shape<Dot> { }
class Line extends Shape<String> { }
