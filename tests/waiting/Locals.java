class Main {
    static int f(int n) {
        int sum = 0;
        for (int i = 0; i < n; i++) {
            int x;
            boolean b;
            String s;
            if (i % 2 == 0) { x = i; b = true; s = "e"; } else { x = -i; b = false; s = "o"; }
            sum += x;
            System.out.println(s + b + x);
        }
        switch (n) {
            case 1: int y;
            default: y = 7; sum += y;
        }
        return sum;
    }
    public static void main(String[] args) {
        System.out.println(f(3));
    }
}
