class Permutations {
    static int count;

    static void permute(char[] letters, int at) {
        if (at == letters.length) {
            if (count++ % 100 == 0) Out.line(new String(letters));
            return;
        }
        for (int i = at; i < letters.length; i++) {
            char held = letters[at];
            letters[at] = letters[i];
            letters[i] = held;
            permute(letters, at + 1);
            letters[i] = letters[at];
            letters[at] = held;
        }
    }

    public static void main(String[] args) {
        permute("abcdef".toCharArray(), 0);
        Out.line(count);
    }
}
