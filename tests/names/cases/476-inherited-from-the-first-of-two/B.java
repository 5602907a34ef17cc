class B { }
class B { static class M { } }
