/** Switches on each type that a selector may have. */
class SwitchKinds {
    static int ofChar(char c) {
        switch (c) {
            case 'a': case 'e': case 'i': case 'o': case 'u': return 1;
            case ' ': return 2;
            case '\uffff': return 3;
            default: return c >= '0' && c <= '9' ? 4 : 5;
        }
    }

    static int ofByte(byte b) {
        switch (b) {
            case -128: return 1;
            case 127: return 2;
            case 0: return 3;
        }
        return 4;
    }

    static int ofShort(short s) {
        switch (s) {
            case -32768: return 1;
            case 32767: return 2;
            default: return 3;
        }
    }

    static int ofBox(Integer box) {
        switch (box) {
            case 1: return 10;
            case 1000: return 20;
            default: return 30;
        }
    }

    static int ofCharacter(Character box) {
        switch (box) {
            case 'x': return 1;
            default: return 2;
        }
    }

    static int ofText(String text) {
        switch (text) {
            case "one": return 1;
            case "two": return 2;
            case "Aa": return 3;
            case "BB": return 4;
            case "": return 5;
            default: return 6;
        }
    }

    public static void main(String[] args) {
        char[] chars = { 'a', 'b', ' ', '\uffff', '7', 'u' };
        for (char c : chars) {
            Out.line(ofChar(c));
        }
        byte[] bytes = { -128, 127, 0, 1 };
        for (byte b : bytes) {
            Out.line(ofByte(b));
        }
        Out.line(ofShort((short) 32768));
        Out.line(ofShort((short) 32767));
        Out.line(ofShort((short) 3));
        Out.line(ofBox(1));
        Out.line(ofBox(1000));
        Out.line(ofBox(-1));
        Out.line(ofCharacter('x'));
        Out.line(ofCharacter('y'));
        try {
            Out.line(ofBox(null));
        } catch (NullPointerException e) {
            Out.line("no box");
        }
        String[] texts = { "one", "two", "Aa", "BB", "", "C#", "three" };
        for (String text : texts) {
            Out.line(ofText(text.concat("")));
        }
        try {
            Out.line(ofText(null));
        } catch (NullPointerException e) {
            Out.line("no text");
        }
    }
}
