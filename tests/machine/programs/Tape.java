/** An interpreter of eight instructions over a tape of bytes. */
class Tape {
    static void run(String program) {
        byte[] tape = new byte[100];
        int at = 0;
        for (int pc = 0; pc < program.length(); pc++) {
            switch (program.charAt(pc)) {
                case '>': at++; break;
                case '<': at--; break;
                case '+': tape[at]++; break;
                case '-': tape[at]--; break;
                case '.': System.out.write(tape[at]); break;
                case '[':
                    if (tape[at] == 0) pc = match(program, pc, 1);
                    break;
                case ']':
                    if (tape[at] != 0) pc = match(program, pc, -1);
                    break;
                default: break;
            }
        }
    }

    static int match(String program, int pc, int step) {
        int depth = 0;
        do {
            if (program.charAt(pc) == '[') depth++;
            if (program.charAt(pc) == ']') depth--;
            pc += step;
        } while (depth != 0);
        return pc - step;
    }

    public static void main(String[] args) {
        run("++++++++[>++++[>++>+++>+++>+<<<<-]>+>+>->>+[<]<-]>>.>---.+++++++..+++.>>.<-.<.+++.------.--------.>>+.>++.");
        try {
            run("+[>+]");
        } catch (ArrayIndexOutOfBoundsException e) {
            Out.line("off the tape");
        }
    }
}
