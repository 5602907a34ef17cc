abstract final class B { }
