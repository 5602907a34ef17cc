class Main {
    public static void main(String[] args) {
        Byte b = 127;
        b++;
        Short s = 1;
        --s;
        Character c = 'a';
        char was = c++;
        System.out.println(b);
        System.out.println(s);
        System.out.println(c);
        System.out.println(was);
    }
}
