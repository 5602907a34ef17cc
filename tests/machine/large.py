"""Programs that are too long to be kept as texts."""
import os

LITERALS = 20_000
IN_METHOD = 1_000
LINKS = 500
ANEW = 170
OVERLOADS = 300


def many_literals():
    """A program of many distinct literals, each of which is used twice: the second time it has to be the same object."""
    methods = range(LITERALS // IN_METHOD)
    lines = ["class ManyLiterals {", "    static String[] seen = new String[%d];" % LITERALS, "    static int at;", "    static int same;",
             "    static int sum;", "",
             "    static void use(String text) {", "        sum = sum * 31 + text.length() * 7 + text.charAt(text.length() - 1);",
             "        if (seen[at] == text) {", "            same++;", "        }", "        seen[at++] = text;", "    }", ""]
    for method in methods:
        lines += ["    static void part%d() {" % method]
        lines += ['        use("literal %d");' % number for number in range(method * IN_METHOD, (method + 1) * IN_METHOD)]
        lines += ["    }", ""]
    lines += ["    public static void main(String[] args) {", "        for (int turn = 0; turn < 2; turn++) {", "            at = 0;"]
    lines += ["            part%d();" % method for method in methods]
    lines += ["            Out.line(same);", "            Out.line(sum);", "        }", "    }", "}", ""]
    return "\n".join(lines)


def deep_chain():
    """A chain of many superclasses, with a million calls of a method that the topmost one declares and of one that is declared anew on the way."""
    # java finds superclasses by recursion, so each is made before those below it, and the two that are used go by way of Object
    lines = ["class DeepChain {", "    public static void main(String[] args) {", "        Object[] made = new Object[%d];" % LINKS]
    lines += ["        made[%d] = new Link%d();" % (link, link) for link in range(LINKS)]
    lines += ["        Link0 last = (Link0) made[%d];" % (LINKS - 1), "        Link0 middle = (Link0) made[%d];" % (LINKS // 2), "        int sum = 0;",
              "        for (int turn = 0; turn < 1000000; turn++) {",
             "            sum = sum * 31 + last.top(turn) + middle.top(turn);", "            sum += last.changed() + middle.changed();", "        }",
             "        Out.line(sum);", "        Out.line(last.changed());", "        Out.line(middle.changed());", "    }", "}", "",
             "class Link0 {", "    int top(int number) {", "        return number + 1;", "    }", "", "    int changed() {", "        return 0;", "    }", "}"]
    for link in range(1, LINKS):
        lines += ["", "class Link%d extends Link%d {" % (link, link - 1)]
        if link % ANEW == 0:
            lines += ["    int changed() {", "        return %d;" % link, "    }"]
        lines += ["}"]
    return "\n".join(lines + [""])


def many_overloads():
    """A class of many methods of one name, and one below it that has each third of them anew."""
    kinds = ["Kind%d" % kind for kind in range(OVERLOADS)]
    lines = ["class ManyOverloads {"]
    lines += ["    int of(%s kind) {\n        return %d;\n    }\n" % (kind, at) for at, kind in enumerate(kinds)]
    lines += ["    public static void main(String[] args) {", "        ManyOverloads[] both = {new ManyOverloads(), new FewOverloads()};", "        for (int turn = 0; turn < 200; turn++) {",
              "            int sum = turn;", "            for (int at = 0; at < 2; at++) {", "                ManyOverloads one = both[at];"]
    lines += ["                sum = sum * 31 + one.of(new %s());" % kind for kind in kinds]
    lines += ["            }", "            Out.line(sum);", "        }", "    }", "}", "", "class FewOverloads extends ManyOverloads {"]
    lines += ["    int of(%s kind) {\n        return %d;\n    }\n" % (kind, 1000 + at) for at, kind in enumerate(kinds) if at % 3 == 0]
    lines += ["}"]
    lines += ["\nclass %s {\n}" % kind for kind in kinds]
    return "\n".join(lines + [""])


def write_all(folder):
    """Writes the programs into a new folder."""
    os.makedirs(folder)
    for name, text in (("ManyLiterals", many_literals()), ("DeepChain", deep_chain()), ("ManyOverloads", many_overloads())):
        with open(os.path.join(folder, name + ".java"), "w", encoding="utf-8") as file:
            file.write(text)
