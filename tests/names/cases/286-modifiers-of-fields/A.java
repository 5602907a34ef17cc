class A {
    private static volatile transient int first;
    transient final protected int second = 2;
    public static final int THIRD = 3;
    volatile int fourth, fifth;
    interface I {
        public static final int FIRST = 1;
        final int SECOND = 2;
        static public int THIRD = 3;
    }
}
