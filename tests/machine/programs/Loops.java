/** Each loop, with breaks and continues to each label. */
class Loops {
    public static void main(String[] args) {
        int sum = 0;
        outer:
        for (int i = 0; i < 10; i++) {
            inner:
            for (int j = 0; ; j++) {
                if (j > i) continue outer;
                if (j == 7) break outer;
                if ((i + j) % 3 == 0) continue inner;
                if (i * j > 40) break inner;
                sum += i * 10 + j;
            }
        }
        Out.line(sum);
        int n = 0;
        do {
            n++;
            if (n == 3) continue;
            if (n == 6) break;
            Out.line(n);
        } while (n < 10);
        Out.line("n", n);
        int m = 100;
        while (m > 0) {
            m -= 7;
            if (m % 2 == 0) continue;
            if (m < 50) break;
        }
        Out.line("m", m);
        block: {
            if (m > 0) break block;
            Out.line("not reached");
        }
        for (int a = 0, b = 10; a < b; a += 2, b--) {
            Out.numbers(new long[] { a, b });
        }
        int[] none = { };
        for (int x : none) {
            Out.line(x);
        }
        for (char c : "text".toCharArray()) {
            System.out.write(c);
        }
        Out.line();
        int k = 0;
        for (; ; ) {
            if (k++ == 4) break;
        }
        Out.line(k);
        twice:
        while (true) {
            do {
                if (k > 10) break twice;
                k += 2;
                continue twice;
            } while (false);
        }
        Out.line(k);
    }
}
