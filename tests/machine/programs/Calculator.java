// input: 1+2*3\n(4-10)/4\n-(2)*(3-(-5))\n7%(3-3)\n2*(\n
import java.io.IOException;

/** Reads expressions and tells their values. */
class Calculator {
    static class Fault extends Exception {
        Fault(String text) { super(text); }
    }

    private final String text;
    private int at;

    Calculator(String text) { this.text = text; }

    private char peek() { return at < text.length() ? text.charAt(at) : '\n'; }

    private long sum() throws Fault {
        long value = product();
        for (;;) {
            switch (peek()) {
                case '+': at++; value += product(); break;
                case '-': at++; value -= product(); break;
                default: return value;
            }
        }
    }

    private long product() throws Fault {
        long value = single();
        for (;;) {
            char sign = peek();
            if (sign != '*' && sign != '/' && sign != '%') return value;
            at++;
            long other = single();
            value = sign == '*' ? value * other : sign == '/' ? value / other : value % other;
        }
    }

    private long single() throws Fault {
        char c = peek();
        if (c == '-') {
            at++;
            return -single();
        }
        if (c == '(') {
            at++;
            long value = sum();
            if (peek() != ')') throw new Fault("no )");
            at++;
            return value;
        }
        if (c < '0' || c > '9') throw new Fault("no number");
        long value = 0;
        while (peek() >= '0' && peek() <= '9') value = value * 10 + (text.charAt(at++) - '0');
        return value;
    }

    public static void main(String[] args) throws IOException {
        StringBuilder line = new StringBuilder();
        for (int b = System.in.read(); b >= 0; b = System.in.read()) {
            if (b != '\n') {
                line.append((char) b);
                continue;
            }
            try {
                System.out.println(line + " = " + new Calculator(line.toString()).sum());
            } catch (Fault e) {
                System.out.println(line + ": " + e.getMessage());
            } catch (ArithmeticException e) {
                System.out.println(line + ": by zero");
            }
            line = new StringBuilder();
        }
    }
}
