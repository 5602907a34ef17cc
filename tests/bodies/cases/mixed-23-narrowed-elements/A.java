class A {
    void m() {
        byte[] b = {(byte) 300, 'a', 5};
        char[] c = new char[] {65};
        short[] s = new short['a'];
        c[0] = (char) 65601;
        s[0] += 65537;
        b[0] -= 128L;
        b[1] = c[0] == 'A' ? b[0] : 1;
    }
}
