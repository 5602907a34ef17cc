package p;

interface List {
    int length();
}
class B {
    int size(List list) {
        return list.length();
    }
}
