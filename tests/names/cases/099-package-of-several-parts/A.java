package some.where.else1;

class A {
    some.where.else1.A first;
    some.where.else1.B.M second;
    some.where.else1.B third = new some.where.else1.B();
}
