#!/usr/bin/env python3
"""Compares which sources the lexer takes with which ones `javac --release 7` takes: check.py LEXES

LEXES is the program that says what a file's tokens are. Each case is a whole source that is a program but for what its lexemes are.
Where javag's own profile takes less than Java does, the case says which rule refuses it.
"""
import os
import shutil
import subprocess
import sys
import tempfile

FIELD = b"class A { Object o = %s; }\n"


def field(text):
    return FIELD % text.encode("utf-8")


# sources that both take
TAKEN = [
    b"class A { }\n",
    b"class A { }",
    b"\tclass\fA\r\n{\r}\n",
    b"/* a */ class /** b **/ A // c\n{ }\n",
    b"class A { } // no line end",
    b"class A { /***/ /**/ }\n",
    field("0"), field("07"), field("0x0F"), field("0b101"), field("1_000"), field("0_7"), field("0x7fff_ffffL"),
    field("2147483647"), field("9223372036854775807L"), field("0xffffffff"), field("0l"), field("1__0"),
    field("'a'"), field("'\\n'"), field("'\\''"), field("'\"'"), field("'\\7'"), field("'\\377'"), field("'\\u0041'"),
    field("\"\""), field("\"a\\tb\""), field("\"\\\"\""), field("\"'\""), field("\"\\0\\12\\477\""), field("\"\\\\u0041\""),
    field("\"\u00e9\u4e2d\""), field("'\u4e2d'"), field("\"\\uuuu0041\""),
    b"class \\u0041 { }\n",
    b"class A { int \\u0061b = 1; }\n",
    "class \u00c9t\u00e9 { }\n".encode("utf-8"),
    b"class A { int _a1 = 1; }\n",
    b"class A { int i = 8 >>> 1 >> 1 << 1; { i >>>= 1; i >>= 1; i <<= 1; i += +1; i -= -1; } }\n",
    b"class A { boolean b = 1 >= 2 | 1 <= 2 && 1 != 2 || !(1 == 2) ^ true; }\n",
    b"class A<T> { A<A<A<T>>> a; }\n",
    b"class A { String s = \"\\u005c\\u005c\"; }\n",
]

# sources that both refuse
REFUSED = [
    b"class A { /* ",
    b"class A { /*/ }\n",
    b"class A { } \\u00\n",
    b"class A { } \\uu004\n",
    b"class A { } #\n",
    b"class A { int a` = 1; }\n",
    field("''"), field("'ab'"), field("'"), field("'\\x'"), field("'\\400'"), field("'\n'"), field("'\\u000a'"),
    field("\""), field("\"a\n\""), field("\"\\q\""), field("\"\\u000a\""),
    field("09"), field("0x"), field("1_"), field("0b2"), field("0b"), field("0_"), field("0x_1"), field("1_L"),
    field("\"\\\""),
]

# sources that Java takes, and javag refuses by a rule of its own
OWN = [
    (108, field("1.0")), (108, field(".5")), (108, field("1f")), (108, field("1e5")), (108, field("0x1p3")), (108, field("1.")),
    (109, b"class A$B { }\n"), (109, b"class A { int $ = 1; }\n"),
]


def told(lexes, folder, name):
    out = subprocess.run([lexes, name], cwd=folder, stdout=subprocess.PIPE, check=True).stdout.decode()
    return out.strip().split(": ", 1)[1]


def main():
    lexes = sys.argv[1]
    javac = shutil.which("javac")
    if javac is None:
        print("skipped: the lexer's comparison needs javac")
        return 0
    bad = []
    cases = [(source, True, None) for source in TAKEN] + [(source, False, None) for source in REFUSED]
    cases += [(source, True, rule) for rule, source in OWN]
    with tempfile.TemporaryDirectory() as folder:
        for source, taken, own in cases:
            with open(os.path.join(folder, "A.java"), "wb") as f:
                f.write(source)
            by_javac = subprocess.run([javac, "--release", "7", "-encoding", "UTF-8", "-proc:none", "-nowarn", "-d", folder, "A.java"], cwd=folder,
                                      stdout=subprocess.DEVNULL, stderr=subprocess.DEVNULL).returncode == 0
            line = told(lexes, folder, "A.java")
            by_lexes = line.endswith(" tokens")
            if by_javac != taken:
                bad.append("javac disagrees with the table: %r" % source)
            if own is None and by_lexes != taken:
                bad.append("the lexer says %s of %r" % (line, source))
            if own is not None and not line.startswith("%d at " % own):
                bad.append("the lexer says %s, and not %d, of %r" % (line, own, source))
    for line in bad:
        print(line)
    print("lexer: %d sources compared with javac, %d differ" % (len(cases), len(bad)))
    return 1 if bad else 0


if __name__ == "__main__":
    sys.exit(main())
