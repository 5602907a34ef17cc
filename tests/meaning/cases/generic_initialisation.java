class Log {
    static String text = "";
    static <S> S seen(String word, S value) { text = text + word; return value; }
}
class Base<T> {
    static int made = Log.seen("[Base]", 0);
    T value = Log.seen("(field)", null);
    Base(T given) { Log.seen("(Base)", given); value = given; made = made + 1; }
    T again() { return Log.seen("(again)", value); }
}
class Text extends Base<String> {
    static String word = Log.seen("[Text]", "w");
    Text(String given) { super(Log.seen("(arg)", given)); Log.seen("(Text)", given); }
    String again() { return Log.seen("(own)", super.again()); }
}
class Main {
    public static void main(String[] args) {
        Base<String> base = new Text("t");
        System.out.println(Log.text);
        String text = base.again();
        System.out.println(text);
        System.out.println(Log.text);
        Base raw = base;
        Object again = raw.again();
        System.out.println(again);
        Base<Integer> number = new Base<Integer>(Log.seen("(int)", 5));
        int n = number.again();
        System.out.println(n);
        System.out.println(Base.made);
        System.out.println(Log.text);
        Base<String> wrong = (Base) number;
        try { System.out.println(wrong.again()); } catch (ClassCastException e) { System.out.println("no text"); }
        try { String s = Log.seen("(raw)", (String) raw.value); System.out.println(s); } finally { System.out.println(Log.text); }
        wrong.again();
        Object o = wrong.again();
        System.out.println(o);
        String last = wrong.again();
        System.out.println(last);
    }
}
