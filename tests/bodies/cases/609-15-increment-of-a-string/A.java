class A {
    void m(String s, Byte b, Character c, byte d) {
        b++;
        --c;
        d++;
        s++;
    }
}
