class A<T extends Number> {
    Object m(T t, Object o) {
        Integer i = (Integer) (Number) t;
        Integer j = (Integer) t;
        T u = (T) o;
        return (String) t;
    }
}
