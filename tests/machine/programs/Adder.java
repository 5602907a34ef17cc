// input: 12 -7 300000000000 x 5\n
import java.io.IOException;

/** Reads a byte, acts, and reads on. */
class Adder {
    public static void main(String[] args) throws IOException {
        long sum = 0;
        StringBuilder word = new StringBuilder();
        for (;;) {
            int b = System.in.read();
            if (b > ' ') {
                word.append((char) b);
                continue;
            }
            if (word.length() > 0) {
                try {
                    sum += Long.parseLong(word.toString());
                    Out.line(sum);
                } catch (NumberFormatException e) {
                    Out.line(e.getMessage());
                }
                word = new StringBuilder();
            }
            if (b < 0) {
                break;
            }
        }
    }
}
