class T { }
class A<T> {
    T first;
    static T second;
}
