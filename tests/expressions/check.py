#!/usr/bin/env python3
"""Compares how expressions and types are read with trees that were written by hand, and with what `javac --release 7` takes: check.py TREES ["types"]

TREES is the program that says what the tree is that a file begins with. Trees may have 200 heights, as crates/jc_tree/specs/Heights.antt
counts them; here they are counted once more, of the trees in words.
"""
import os
import re
import shutil
import subprocess
import sys
import tempfile
import time

import table

HEIGHTS = 200
LEXEME = re.compile(r"[A-Za-z_]\w*|\d\w*|'(?:\\.|[^'\\])*'|\"(?:\\.|[^\"\\])*\"|<<=|==|<=|!=|&&|\|\||\+\+|--|<<|[-+*/&|^%]=|\S")
LINE = re.compile(r"(.*) next (\d+) reach (\d+)")
GENEROUS_SECONDS = 60


def count(source):
    return len(LEXEME.findall(source))


# trees in words


def tree_of(words):
    """The tree as nested lists."""
    root = []
    open_lists = [root]
    for word in re.findall(r"[()]|[^\s()]+", words):
        if word == "(":
            inner = []
            open_lists[-1].append(inner)
            open_lists.append(inner)
        elif word == ")":
            open_lists.pop()
        else:
            open_lists[-1].append(word)
    return root[0]


def base_height(ty):
    if isinstance(ty, str):
        return 0
    if ty[0] == "path":
        return max(base_height(part) for part in ty[1:])
    return max(argument_height(arg) for arg in ty[2:])


def type_height(ty):
    return 1 + base_height(ty[2] if ty[0] == "array" else ty)


def argument_height(arg):
    if arg == "?":
        return 0
    return type_height(arg[1] if arg[0] in ("extends", "super") else arg)


def body_height(body):
    return 1 + max([body_height(part) for part in body[1:] if part and part[0] == "body"], default=0)


def creation_height(creation):
    kind, parts = creation[0], creation[2:]
    if kind in ("object", "object-diamond"):
        heights = [body_height(part) if part[0] == "body" else height(part) for part in parts]
    elif kind == "sized":
        heights = [height(part) for part in parts[:-1]]
    else:
        heights = [height(parts[1])]
    return max([base_height(creation[1])] + heights)


def operand_height(operand):
    return type_height(operand[1]) if operand[0] == "instanceof" else height(operand[1])


def inside(expr):
    """The heights of what stands in an expression or in an array initialiser."""
    if isinstance(expr, str) or expr[0] in ("char", "string", "void-literal", "super-field", "outer-this"):
        return []
    kind, parts = expr[0], expr[1:]
    if kind == "chain":
        return [height(parts[0])] + [operand_height(operand) for operand in parts[1:]]
    if kind == "prefix":
        return [height(parts[-1])]
    if kind == "cast":
        return [type_height(parts[0]), height(parts[1])]
    if kind in ("assign", "postfix", "invoke"):
        return [height(part) for part in parts[1:]]
    if kind == "field":
        return [height(parts[0])]
    if kind in ("call", "super-call"):
        before = 1 if kind == "call" else 0
        name = parts[before]
        arguments = [] if isinstance(name, str) else [argument_height(arg) for arg in name[2:]]
        return arguments + [height(part) for part in parts[:before] + parts[before + 1:]]
    if kind == "inner":
        return [height(parts[0]), creation_height(parts[1])]
    if kind == "new":
        return [creation_height(parts[0])]
    if kind == "class-literal":
        return [type_height(parts[0])]
    if kind == "init":
        return [height(part) for part in parts if part != ","]
    return [height(part) for part in parts]


def height(expr):
    return 1 + max(inside(expr), default=0)


# nests of every kind: the source whose tree has n heights


def type_of(n):
    return "A<" * (n - 1) + "A" + ">" * (n - 1)


NESTS = {
    "parentheses": lambda n: "(" * (n - 1) + "a" + ")" * (n - 1),
    "calls in calls": lambda n: "f(" * (n - 1) + "a" + ")" * (n - 1),
    "calls of super in each other": lambda n: "super.f(" * (n - 1) + "a" + ")" * (n - 1),
    "indexes in indexes": lambda n: "a[" * (n - 1) + "a" + "]" * (n - 1),
    "conditionals on the right": lambda n: "a ? a : " * (n - 1) + "a",
    "conditionals in the middle": lambda n: "a ? " * (n - 1) + "a" + " : a" * (n - 1),
    "assignments": lambda n: "a = " * (n - 1) + "a",
    "casts to primitives": lambda n: "(int) " * (n - 1) + "a",
    "casts to classes": lambda n: "(A) " * (n - 1) + "a",
    "array initialisers": lambda n: "new int[] " + "{" * (n - 1) + "}" * (n - 1),
    "arguments of types in casts": lambda n: "(%s) a" % type_of(n - 1),
    "arguments of types behind instanceof": lambda n: "a instanceof " + type_of(n - 1),
    "arguments of types in calls": lambda n: "a.<%s>f()" % type_of(n - 1),
    "arguments of types in creations": lambda n: "new %s()" % type_of(n),
    "lengths in lengths": lambda n: "new int[" * (n - 1) + "a" + "]" * (n - 1),
    "fields of fields": lambda n: "a" + ".b" * (n - 1),
    "calls of calls": lambda n: "a" + ".f()" * (n - 1),
    "indexes of indexes": lambda n: "a" + "[0]" * (n - 1),
    "creations of creations": lambda n: "a" + ".new A()" * (n - 1),
    "creations in creations": lambda n: "new A(" * (n - 1) + "a" + ")" * (n - 1),
    "bodies in bodies": lambda n: "new A() " + "{" * (n - 1) + "}" * (n - 1),
    "postfix operators": lambda n: "a" + " ++" * (n - 1),
    "chains in parentheses": lambda n: "(" * (n - 2) + "a + a" + ")" * (n - 2),
}

MANY = 100_000

# what counts once, however long it is: the source, the height, and a part of the tree with how often it stands there
LONG = {
    "operators": ("a" + " + a" * MANY, 2, "(+ a)", MANY),
    "operators of all levels": ("a" + " + a * a << a < a == a & a ^ a | a && a || a" * (MANY // 10), 11, "(|| ", MANY // 10),
    "prefix operators": ("- " * MANY + "a", 2, "- ", MANY),
    "actual arguments": ("f(a" + ", a" * MANY + ")", 2, " a", MANY + 1),
    "parts of an array": ("new int[] { 1" + ", 1" * MANY + " }", 3, " 1", MANY + 1),
    "names of a class literal": ("a" + ".b" * MANY + ".class", 2, " b", MANY),
    "brackets of a class literal": ("int" + "[]" * MANY + ".class", 2, "(array 100000 int)", 1),
    "arguments of a type": ("(A<B" + ", B" * MANY + ">) a", 3, " B", MANY + 1),
    "tokens of a body": ("new A() {" + " ;" * MANY + " }", 2, " ;", MANY),
}

# selectors are nested, so of many the first 199 are read: the source, the token behind them, and the reach
CUT = {
    "fields": ("a" + ".b" * MANY, 1 + 2 * (HEIGHTS - 1), 1 + 2 * MANY),
    "calls": ("a" + ".f()" * MANY, 1 + 4 * (HEIGHTS - 1), 1 + 4 * (HEIGHTS - 1)),
    "indexes": ("a" + "[0]" * MANY, 1 + 3 * (HEIGHTS - 1), 1 + 3 * (HEIGHTS - 1)),
    "postfix operators": ("a" + " ++" * MANY, HEIGHTS, HEIGHTS),
}


class Reading:
    """Sources in a folder, and what the program says of them."""

    def __init__(self, trees, folder):
        self.trees = trees
        self.folder = folder
        self.bad = []
        self.checks = 0

    def lines(self, sources, words=()):
        names = []
        for n, source in enumerate(sources):
            names.append("S%d.java" % n)
            with open(os.path.join(self.folder, names[-1]), "w") as f:
                f.write(source)
        run = subprocess.run([self.trees, *words, *names], cwd=self.folder, stdout=subprocess.PIPE, stderr=subprocess.PIPE)
        lines = run.stdout.decode().split("\n")
        if run.returncode != 0 or len(lines) != len(names) + 1:
            self.bad.append("the program ends with %d and %d lines for %d sources: %s" % (run.returncode, len(lines) - 1, len(names), run.stderr[-300:]))
            return ["" for _ in sources]
        return [line.split(": ", 1)[1] for line in lines[:-1]]

    def wants(self, sources, words, wanted):
        for source, line, want in zip(sources, self.lines(sources, words), wanted):
            self.checks += 1
            if line != want:
                self.bad.append("of `%s`: %s, and not %s" % (source[:80], line[:200], want[:200]))

    def table(self, whole, parts, faults, words=()):
        sources = [row[0] for row in whole + parts + faults]
        wanted = ["%s next %d reach %d" % (tree, count(source), count(source)) for source, tree in whole]
        wanted += ["%s next %d reach %d" % (tree, behind, reach) for _, tree, behind, reach in parts]
        wanted += ["syntax error at %d" % token for _, token in faults]
        self.wants(sources, words, wanted)

    def nests(self):
        rows = [(name, n, nest(n)) for name, nest in NESTS.items() for n in (HEIGHTS, HEIGHTS + 1, 30 * HEIGHTS)]
        for (name, n, source), line in zip(rows, self.lines([row[2] for row in rows])):
            self.nested(name, n, source, line, height)

    def nested(self, name, n, source, line, measure):
        self.checks += 1
        told = LINE.fullmatch(line)
        if told is None:
            if n <= HEIGHTS or not line.startswith("syntax error at "):
                self.bad.append("%s, %d heights: %s" % (name, n, line[:200]))
            return
        whole = int(told.group(2)) == count(source)
        tall = measure(tree_of(told.group(1)))
        if whole != (n <= HEIGHTS) or tall > HEIGHTS or (whole and tall != n):
            self.bad.append("%s, %d heights: a tree of %d heights up to token %s" % (name, n, tall, told.group(2)))

    def long(self):
        for (name, (source, tall, part, often)), line in zip(LONG.items(), self.lines([row[0] for row in LONG.values()])):
            self.checks += 1
            told = LINE.fullmatch(line)
            if told is None or int(told.group(2)) != count(source) or told.group(1).count(part) != often or height(tree_of(told.group(1))) != tall:
                self.bad.append("many %s: %s" % (name, line[:60] + " .. " + line[-60:]))
        for (name, (source, behind, reach)), line in zip(CUT.items(), self.lines([row[0] for row in CUT.values()])):
            self.checks += 1
            if not line.endswith(" next %d reach %d" % (behind, reach)) or height(tree_of(LINE.fullmatch(line).group(1))) != HEIGHTS:
                self.bad.append("many %s, one of another: %s" % (name, line[:60] + " .. " + line[-60:]))

    def types(self):
        self.table(table.TYPES, table.TYPE_PARTS, table.TYPE_FAULTS, ["--type"])
        self.wants(["a /* b", "1.0"], ["--type"], ["106 at 2", "108 at 0"])
        rows = [(n, type_of(n)) for n in (HEIGHTS, HEIGHTS + 1, 30 * HEIGHTS)]
        for (n, source), line in zip(rows, self.lines([row[1] for row in rows], ["--type"])):
            self.nested("types", n, source, line, type_height)

    def speed(self):
        part = "f(a, b.c(d)[e + 1], (int) x) + g(new A<B>(h), i ? j : k) * -l + this.m.n(\"text\", 'c', 0x1f)"
        source = " + ".join([part] * (5_000_000 // (len(part) + 3)))
        start = time.monotonic()
        line = self.lines([source])[0]
        seconds = time.monotonic() - start
        self.checks += 1
        if not line.endswith(" next %d reach %d" % (count(source), count(source))):
            self.bad.append("of 5 MB of expressions: %s" % (line[:60] + " .. " + line[-60:]))
        if seconds > GENEROUS_SECONDS:
            self.bad.append("5 MB of expressions took %.1f seconds" % seconds)
        return seconds

    def compared(self, javac):
        """Which whole expressions and types javac's parser takes."""
        rows = [("Object m() { return %s; }" % source, source, taken) for source, taken in taken_expressions()]
        rows += [("%s f;" % source, source, taken) for source, taken in taken_types()]
        names = []
        for n, (member, _, _) in enumerate(rows):
            names.append("T%d.java" % n)
            with open(os.path.join(self.folder, names[-1]), "w") as f:
                f.write("class T%d { %s }\n" % (n, member))
        said = subprocess.run([javac, "--release", "7", "-proc:none", "-nowarn", "-Xmaxerrs", "100000", "-XDshould-stop.ifError=PARSE", "-XDshould-stop.ifNoError=PARSE", "-d", self.folder] + names,
                              cwd=self.folder, stdout=subprocess.PIPE, stderr=subprocess.STDOUT).stdout.decode()
        refused = set(re.findall(r"^(T\d+\.java):\d+: error", said, re.M))
        for name, (_, source, taken) in zip(names, rows):
            self.checks += 1
            if (name not in refused) != taken:
                self.bad.append("javac %s `%s`" % ("takes" if name not in refused else "refuses", source))
        return len(rows)


def taken_expressions():
    yield from ((row[0], True) for row in table.WHOLE + table.LOOSER + table.LOOSER_FAULTS)
    yield from ((row[0], False) for row in table.PART + table.FAULTS if row[0] not in table.TAKEN_BY_JAVAC)


def taken_types():
    yield from ((row[0], True) for row in table.TYPES)
    yield from ((row[0], False) for row in table.TYPE_PARTS + table.TYPE_FAULTS)


def main():
    sys.setrecursionlimit(100_000)
    only_types = sys.argv[2:] == ["types"]
    seconds = 0.0
    with tempfile.TemporaryDirectory() as folder:
        reading = Reading(os.path.abspath(sys.argv[1]), folder)
        reading.types()
        if not only_types:
            reading.table(table.WHOLE, table.PART + table.LOOSER, table.FAULTS + table.LOOSER_FAULTS)
            reading.nests()
            reading.long()
            seconds = reading.speed()
        javac = shutil.which("javac")
        if javac is None:
            print("skipped: the comparison of expressions needs javac")
        else:
            reading.compared(javac)
    for line in reading.bad:
        print(line)
    if not only_types:
        print("5 MB of expressions: %.1f seconds" % seconds)
    print("expressions and types: %d checks, %d differ" % (reading.checks, len(reading.bad)))
    return 1 if reading.bad else 0


if __name__ == "__main__":
    sys.exit(main())
