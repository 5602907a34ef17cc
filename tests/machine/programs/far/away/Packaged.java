package far.away;

/** A class of a package, whose binary name has dots. */
public class Packaged {
    static class Inside extends RuntimeException { }

    static void line(String text) {
        for (int at = 0; at < text.length(); at++) {
            System.out.write(text.charAt(at));
        }
        System.out.write('\n');
    }

    public static void main(String[] args) {
        line(new Inside().toString());
        line(new Inside() instanceof Inside ? "yes" : "no");
        throw new Inside();
    }
}
