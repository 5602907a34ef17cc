  class A { }
