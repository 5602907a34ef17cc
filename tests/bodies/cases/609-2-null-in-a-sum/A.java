class A {
    Object m() {
        Object o = "a" + null + 'c' + null;
        return null + 'c';
    }
}
