class Ä {
    Ä a;
    String m(byte b, Character c, Object[] o, Ä ä) {
        return b + "" + c + o + ä + (1 + 2L) + !true + (c + b);
    }
}
