class A<T>
    extends Nope<Never> {
    Neither field;
}
