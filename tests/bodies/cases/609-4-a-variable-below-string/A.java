class A<T extends String> {
    Object m(T t) {
        Object o = t + "a";
        return t + 1;
    }
}
