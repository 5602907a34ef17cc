import java.io.IOException;

class NoInput {
    public static void main(String[] args) throws IOException {
        Out.line(System.in.read());
        Out.line(System.in.read());
    }
}
