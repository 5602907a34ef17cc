/** Which arrays are instances of what. */
class ArrayTypes {
    interface Face { }
    static class Top { }
    static class Low extends Top implements Face { }

    static int bits(Object o) {
        int bits = 0;
        if (o instanceof Object) bits |= 1;
        if (o instanceof Object[]) bits |= 2;
        if (o instanceof Top[]) bits |= 4;
        if (o instanceof Low[]) bits |= 8;
        if (o instanceof Face[]) bits |= 16;
        if (o instanceof int[]) bits |= 32;
        if (o instanceof int[][]) bits |= 64;
        if (o instanceof Object[][]) bits |= 128;
        if (o instanceof long[]) bits |= 256;
        if (o instanceof boolean[]) bits |= 512;
        if (o instanceof byte[]) bits |= 1024;
        if (o instanceof char[]) bits |= 2048;
        if (o instanceof short[]) bits |= 4096;
        if (o instanceof Top[][]) bits |= 8192;
        if (o instanceof Top) bits |= 16384;
        if (o instanceof String) bits |= 32768;
        return bits;
    }

    public static void main(String[] args) {
        Object[] all = { null, new Object(), new Top(), new Low(), "text", new Object[0], new Top[0], new Low[0], new Face[0], new int[0],
            new int[0][0], new Object[0][0], new long[0], new boolean[0], new byte[0], new char[0], new short[0], new Low[0][0], new Face[0][],
            new int[0][0][0], new String[0], new Top[0][][] };
        for (Object o : all) {
            Out.line(bits(o));
        }
    }
}
