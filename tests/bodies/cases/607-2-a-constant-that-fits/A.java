class A {
    byte a = 127;
    char b = 97;
    Byte c = 'a';
    Short d = (byte) 1;
    Character e = 'a' + 1;
    static final int K = 7;
    byte f = K - 8;
    short g = true ? 'x' : 5;
}
