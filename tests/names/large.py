#!/usr/bin/env python3
"""Sources that are too large to be kept, with what is to be said of their names: large.py FOLDER writes them, each job into a folder of its own.

`run` asks the program of them once it takes the stage of names, and javac of the same jobs with fewer classes.
"""
import os
import sys


class Job:
    """Sources by their names, in order, and `ok` or `FILE:LINE: error NUMBER`. javac isn't asked where it has no such rule, or takes too long."""

    def __init__(self, name, texts, expected, javac=True):
        self.name = name
        self.texts = texts
        self.expected = expected
        self.javac = javac

    def write(self, folder):
        for name, text in self.texts.items():
            with open(os.path.join(folder, name), "w", encoding="utf-8") as f:
                f.write(text)


def one(name, lines, expected, javac=True):
    """A job of one source: `expected` is `ok`, or a line from 1 and a number."""
    text = "".join(line + "\n" for line in lines)
    return Job(name, {"A.java": text}, expected if expected == "ok" else "A.java:%d: error %d" % expected, javac)


def without_types():
    yield one("an empty source", [], "ok")
    yield one("a source of comments", ["// nothing", "/*", "class A { }", "*/"], "ok")
    yield one("a source of 1,000,000 semicolons", [";" * 1000] * 1000, "ok")
    yield one("a source of imports", ["import java.util.Map.*;", "import java.io.*;"] * 2, "ok")
    yield Job("sources without types, and one that has one", {"A.java": "", "B.java": "\n", "C.java": "class C { }\n", "D.java": "class D extends C { }\n"}, "ok")


def twice(count):
    yield Job("two types of one name", {"A.java": "class A { }\n", "B.java": "\ninterface A { }\n"}, "B.java:2: error 301")
    first = "".join("class C%d { }\n" % n for n in range(count))
    second = "".join("class D%d extends C%d { }\n" % (n, n) for n in range(count))
    yield Job("two types of one name among many", {"A.java": first, "B.java": second + "class C%d { }\n" % (count // 2)}, "B.java:%d: error 301" % (count + 1))
    yield Job("many types, each twice", {"A.java": first, "B.java": second + first}, "B.java:%d: error 301" % (count + 1))


def cycles(count):
    down = ["class C%d extends C%d { }" % (n, n + 1) for n in range(count)]
    up = ["class C%d { }" % 0] + ["class C%d extends C%d { }" % (n + 1, n) for n in range(count)]
    yield one("a cycle of %d classes" % (count + 1), down + ["class C%d extends C0 { }" % count], (1, 304))
    yield one("a cycle of %d classes, each before its subclass" % (count + 1), ["class C0 extends C%d { }" % count] + up[1:], (1, 304))
    yield one("a chain of %d classes above a cycle" % count, down + ["class C%d extends D { }" % count, "class D extends D { }"], (count + 2, 304))
    yield one("a chain of %d classes" % count, down + ["class C%d { int last; }" % count, "class D extends C0 { int known; Nope unknown; }"], (count + 2, 302))
    yield one("a chain of %d classes, each before its subclass" % count, up + ["class D extends C%d { Nope unknown; }" % count], (count + 2, 302))
    yield one("a cycle of %d interfaces by member types" % (count + 1),
              ["interface I%d extends I%d.M { interface M { } }" % (n, n + 1) for n in range(count)] + ["interface I%d extends I0.M { interface M { } }" % count],
              (1, 304), javac=False)


def chains_with_members(count):
    """What is inherited grows with each class: lists of it would take count * count / 2 places."""
    lines = ["class C0 { interface M0 { } }"] + ["class C%d extends C%d { interface M%d { } }" % (n, n - 1, n) for n in range(1, count)]
    yield one("a chain of %d classes with a member type each" % count, lines + ["class A extends C%d { M0 known; M%d other; Nope unknown; }" % (count - 1, count // 2)],
              (count + 1, 302))


def meshes(layers):
    """A type is inherited in 2 to the power of so many ways."""
    lines = ["interface I0 { interface M { } }", "interface J0 extends I0 { }"]
    for n in range(1, layers):
        lines += ["interface I%d extends I%d, J%d { }" % (n, n - 1, n - 1), "interface J%d extends I%d, J%d { }" % (n, n - 1, n - 1)]
    last = layers - 1
    yield one("%d layers of two interfaces" % layers, lines + ["interface A extends I%d, J%d { M known = null; A.M other = null; Nope unknown = null; }" % (last, last)],
              (2 * layers + 1, 302))
    lines[1] = "interface J0 { interface M { } }"
    yield one("%d layers of two interfaces above two types of one name" % layers, lines + ["interface A extends I%d, J%d {" % (last, last), "M known = null; }"],
              (2 * layers + 2, 303))


def names(letters, count):
    long_names = ["N" * (letters - 6) + "%06d" % n for n in range(count)]
    lines = ["class %s { }" % name for name in long_names] + ["class A {"] + ["%s f%d;" % (name, n) for n, name in enumerate(long_names)]
    yield one("%d names of %d letters" % (count, letters), lines + ["}"], "ok")
    yield one("%d names of %d letters, and one more" % (count, letters), lines + ["N" * (letters - 6) + "%06d unknown;" % count, "}"], (len(lines) + 1, 302))
    yield one("a field of %d letters twice" % letters, ["class A {", "int " + "f" * letters + ";", "int " + "f" * letters + ";", "}"], (3, 307))
    yield one("a package of %d letters" % letters, ["package " + "p" * letters + ";", "class A {", "p" * letters + ".A known;", "p" * (letters - 1) + ".A unknown;", "}"], (4, 302))
    yield one("an import of %d parts" % (letters // 2), ["import a" + ".a" * (letters // 2 - 1) + ";"], (1, 306))
    yield one("a type of %d parts" % (letters // 2), ["class A {", "A known;", "a" + ".a" * (letters // 2 - 1) + " unknown;", "}"], (3, 302))


def classes(count):
    lines = ["class C%d { C%d next; }" % (n, (n * 7 + 1) % count) for n in range(count)]
    yield one("%d classes" % count, lines, "ok")
    yield one("%d classes, and an unknown one in the last" % count, lines + ["class A { C0 known; C%d unknown; }" % count], (count + 1, 302))
    inside = ["interface C%d { }" % n for n in range(count)]
    yield one("%d member types" % count, ["class A {"] + inside + ["}"], "ok")
    yield one("%d member types, and one of them twice" % count, ["class A {"] + inside + ["interface C%d { }" % (count // 2), "}"], (count + 2, 301))
    yield one("%d fields, and one of them twice" % count, ["class A {"] + ["int f%d;" % n for n in range(count)] + ["A f0;", "}"], (count + 2, 307))
    yield one("%d type parameters, and one of them twice" % count, ["class A<"] + ["T%d," % n for n in range(count)] + ["T0> { }"], (count + 2, 307))
    yield one("%d superinterfaces, and one of them twice" % count, ["interface I%d { }" % n for n in range(count)] + ["interface A extends"]
              + ["I%d," % n for n in range(count)] + ["I1 { }"], (2 * count + 2, 305))
    yield one("%d imports, and one of another type" % count, ["package p;"] + ["import java.util.List;"] * count + ["import p.A.List;", "class A { interface List { } }"],
              (count + 2, 301))
    yield one("%d imports on demand" % count, ["package p;"] + ["import p.C%d.*;" % n for n in range(count)]
              + ["class C%d { interface M%d { } }" % (n, n) for n in range(count)] + ["class A {"] + ["M%d f%d;" % (n, n) for n in range(count)] + ["Nope unknown;", "}"],
              (3 * count + 3, 302))
    yield one("%d classes without a superclass of that name" % count, ["class C%d extends Nope%d { }" % (n, n) for n in range(count)], (1, 302))
    yield one("a method of %d unknown locals" % count, ["class A {", "void method() {"] + ["A known%d;" % n for n in range(count)] + ["Nope unknown;"] * 3 + ["}", "}"],
              (count + 3, 302))


def nested(depth, most):
    """The source file counts one, so the greatest height leaves room for one type less."""
    def inside(count, text):
        return ["class C%d {" % n if n == 0 else "static class C%d {" % n for n in range(count)] + [text] + ["}"] * count
    yield one("%d nested types" % depth, inside(depth, "C0 first; C%d last;" % (depth - 1)), "ok")
    yield one("%d nested types, and an unknown one inside" % depth, inside(depth, "Nope unknown;"), (depth + 1, 302))
    yield one("%d nested types, and one named like the first inside" % depth, inside(depth - 1, "interface C0 { }"), (depth, 301))
    yield one("%d nested types" % most, inside(most, ""), (most, 202), javac=False)
    heads = ["class B { static class M { } }"] + [("static " if n else "") + "class C%d extends B {" % n for n in range(depth)]
    yield one("%d nested types that inherit" % depth, heads + ["M known; C0.M other; B.M third; Nope unknown;"] + ["}"] * depth, (depth + 2, 302))


def jobs(part=1):
    """All jobs, with a part of their classes."""
    yield from without_types()
    yield from twice(20000 // part)
    yield from cycles(10000 // part)
    yield from chains_with_members(20000 // part)
    yield from meshes(2000 // part)
    yield from names(60000 // part, 100)
    yield from classes(100000 // part)
    yield from nested(198 if part == 1 else 20, 200)


def main():
    top = sys.argv[1]
    for number, job in enumerate(jobs()):
        folder = os.path.join(top, "%02d" % number)
        os.makedirs(folder)
        job.write(folder)
        print("%02d %s: %s" % (number, job.name, job.expected))


if __name__ == "__main__":
    main()
