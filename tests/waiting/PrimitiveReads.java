class Main {
    static int f(boolean b) {
        int x;
        if (b) x = 1; else x = 2;
        return x;
    }
    public static void main(String[] args) {
        System.out.println(f(true));
        System.out.println(f(false));
    }
}
