interface I { interface J { } }
class A
    extends
    I
    .
    J { }
