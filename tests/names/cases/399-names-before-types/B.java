class B {
    Nope field;
}
class C { C() { } }
