// input: Hello\nworld\x00\xff\x80end
import java.io.IOException;

/** Puts out what comes in, and reads on at the end. */
class Echo {
    public static void main(String[] args) throws IOException {
        int count = 0;
        int b;
        while ((b = System.in.read()) != -1) {
            System.out.write(b);
            count++;
        }
        Out.line();
        Out.line(count);
        Out.line(System.in.read());
        Out.line(System.in.read());
    }
}
