class A {
    void m(boolean b, byte y, short s, char c, int i, Byte by, Integer in) {
        byte b1 = b ? y : 5;
        short b2 = b ? y : s;
        char b3 = b ? c : 65;
        byte b4 = b ? by : 5;
        int b5 = b ? c : s;
        int b6 = b ? in : c;
        long b7 = b ? in : 5L;
        Integer b8 = b ? null : 5;
        char b9 = b ? 66 : c;
        byte b10 = b ? 5 : by;
    }
}
