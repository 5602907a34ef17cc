import java.io.IOException;

class UncaughtChecked {
    public static void main(String[] args) throws IOException {
        try {
            throw new IOException("first");
        } catch (IOException e) {
            Out.line(e.getMessage());
            throw new IOException("second");
        } finally {
            Out.line("finally");
        }
    }
}
