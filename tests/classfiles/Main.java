interface Shape { int area(int scale); }
class Square implements Shape {
    private final int side;
    Square(int side) { this.side = side; }
    public int area(int scale) { return side * side * scale; }
    int steps(int most) {
        int n = 0;
        while (n < most && n != side) {
            switch (n) { case 7: n += 3; break; case 900: n = -1; break; default: n++; }
        }
        return n;
    }
    static class Unit extends Square { Unit() { super(1); } public int area(int scale) { return super.area(scale) + 1; } }
}
class Main {
    static long total; static String[] names = { "one", "two" };
    static int pick(int key) { switch (key) { case -5: return 1; case 100: return 2; case 70000: return 3; default: return 4; } }
    static int dense(int key) { switch (key) { case 1: return 7; case 2: return 8; case 3: return 9; } return 0; }
    static long sum(int most) { long s = 0L; for (int i = 0; i < most; i++) { if (i % 3 == 0) continue; s += i; s ^= 123456789012345L; } return s; }
    static Object caught(Object o) {
        try { if (o == null) throw new IllegalStateException("none"); return o.toString(); }
        catch (IllegalStateException e) { return e.getMessage(); }
        finally { total = total + 1; }
    }
    static int[][] grid(int n) { int[][] g = new int[n][n]; for (int i = 0; i < n; i++) for (int j = 0; j < n; j++) g[i][j] = i * j; return g; }
    static char[] chars(String s) { char[] cs = new char[s.length()]; for (int i = 0; i < cs.length; i++) cs[i] = (char) (s.charAt(i) + 1); return cs; }
    public static void main(String[] args) {
        Shape[] shapes = { new Square(3), new Square.Unit() };
        for (Shape s : shapes) System.out.println(s.area(2) + " " + ((Square) s).steps(5) + (s instanceof Square.Unit));
        System.out.println(pick(-5) + pick(100) + pick(70000) + pick(0) + dense(2) + dense(5));
        System.out.println(sum(1000) + " " + caught(null) + " " + caught(names) .equals("x") + total);
        System.out.println(grid(5)[3][4] + new String(chars("abc\u0000\u00e9\u4e2d")).length() + names[1]);
        byte b = (byte) 200; short t = (short) 70000; long m = -1L >>> 3; boolean[] flags = new boolean[3]; flags[1] = true;
        System.out.println(b + " " + t + " " + m + " " + (flags[1] ? "yes" : "no") + (char) 65);
    }
}
