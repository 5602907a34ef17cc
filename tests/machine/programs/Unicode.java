/** Text of several bytes a character; a lone surrogate is a question mark. */
class Unicode {
    public static void main(String[] args) {
        System.out.println("ascii");
        System.out.println("é ß ж 中 \u20ac");
        System.out.println("\ud83d\ude00 \ud800\udc00 \udbff\udfff");
        System.out.println("a\ud800b\udc00c");
        System.out.println('\u00e9');
        System.out.println("\u007f\u0080\u07ff\u0800\uffff");
        System.out.println("nul [\0]");
        System.out.print("one ");
        System.out.print('c');
        System.out.print(5);
        System.out.print(6L);
        System.out.print(true);
        System.out.print((Object) "obj");
        System.out.print((String) null);
        System.out.println();
        System.out.println(7);
        System.out.println(-8L);
        System.out.println(false);
        System.out.println((Object) null);
        System.out.println(Integer.valueOf(9));
        System.out.write(0x141);
        System.out.write(-246);
        Out.line();
    }
}
