class A {
    void m(boolean b, byte y) {
        byte d = b ? y : 97;
        byte e = b ? y : 'a';
    }
}
