class Main {
    public static void main(String[] args) {
        byte[] b = { (byte) 300 };
        char[] c = new char[1];
        short[] s = new short[1];
        c[0] = (char) 65601;
        s[0] += 65537;
        b[0] += 128;
        System.out.println(b[0]);
        System.out.println(c[0]);
        System.out.println(s[0]);
    }
}
