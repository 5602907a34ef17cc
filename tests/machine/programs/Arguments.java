// arguments: one "two words" éa "" -x
/** The program's arguments. */
class Arguments {
    public static void main(String[] args) {
        Out.line(args.length);
        for (String arg : args) {
            System.out.println(arg);
            Out.line(arg.length());
        }
        args[0] = null;
        Out.line(args instanceof Object[]);
        Out.line(args[3].isEmpty());
        Out.line(args[1] == "two words");
        Out.line(args[1].equals("two words"));
    }
}
