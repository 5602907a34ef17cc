#!/usr/bin/env python3
"""Compares the methods that types have with those of `javac --release 7` and java: check.py ASKS

ASKS is the program that answers questions on types (crates/jc_asks). Programs of generic classes and interfaces are drawn by lot (`../headers/drawn.py`); those
that javac takes, and that break no rule, are asked: which methods override and hide which, and which methods each class, its raw type and its type with an
argument have, which the interfaces of javac tell; and which body each class has for each method, which a call by java tells. Each difference
has to come from a rule that is the profile's own.
"""
import collections
import os
import random
import re
import shutil
import subprocess
import sys
import tempfile

sys.dont_write_bytecode = True
HERE = os.path.dirname(os.path.abspath(__file__))
sys.path.insert(0, os.path.join(HERE, "..", "headers"))
from drawn import Drawing, given
from rules import broken_rules

SEED = 3
PROGRAMS = 700
# the least programs and answers that are compared, and the most differences of a rule
LEAST = 200
LEAST_ANSWERS = 3000
MOST_BY_RULE = 25


class Program(Drawing):
    """A program whose bodies leave the labels of their methods."""

    def __init__(self, lot):
        super().__init__(lot)
        self.lines.append("class Told { static String last; }")

    def add_method(self, one):
        super().add_method(one)
        if self.lot.random() < 0.4:
            super().add_method(one)

    def method_line(self, method, one):
        line = super().method_line(method, one)
        if not method.has_body:
            return line
        head, body = line.rsplit(" {", 1)
        return '%s { Told.last = "m%d";%s' % (head, method.number, body)


def words(ty):
    """A type in the words of ASKS."""
    if ty is None:
        return "void"
    if ty[0] == "array":
        return words(ty[1]) + "[]"
    if ty[0] == "class" and ty[2]:
        marks = {"any": "?", "exact": "", "extends": "+"}
        return "%s<%s>" % (ty[1], ",".join(marks[arg[0]] + ("" if arg[0] == "any" else words(arg[1])) for arg in ty[2]))
    return ty[1]


def meet(bounds):
    """Bounds in the words of ASKS."""
    return words(bounds[0]) if len(bounds) == 1 else "{%s}" % "&".join(map(words, bounds))


def bounded(table, names):
    return " ".join(name + ":" + meet(table.bounds[name]) for name in names)


def head(table, one):
    kind = "interface" if one.is_interface else "class"
    return "%s %s %s : %s" % (kind, one.name, bounded(table, one.variables), " ".join(words(ty) for ty in one.supers))


def method_head(table, method):
    marks = [(method.access, method.access), (method.is_abstract, "abstract"), (method.is_static, "static")]
    types = " ".join(words(ty) for ty in [method.result] + method.params)
    return "method m%d %s %s %s fixed %s : %s" % (
        method.number, method.owner, method.name, " ".join(word for is_so, word in marks if is_so), bounded(table, method.variables), types)


def heads(program):
    """The head lines of a program's table, each class before its methods."""
    table = program.table
    for name in [name for name in given().classes if name != "Object"] + program.names:
        yield head(table, table.classes[name])
        yield from (method_head(table, method) for method in table.methods if method.owner == name)


def judged(programs, room):
    """For each program the questions with javac's answers, and None where it is refused."""
    files = []
    for number, program in enumerate(programs):
        files.append(os.path.join(room, "P%d.java" % number))
        with open(files[-1], "w") as it:
            it.write("\n".join(program.lines) + "\n")
    run = subprocess.run(["java", "-XX:TieredStopAtLevel=1", "-XX:+UseSerialGC", os.path.join(HERE, "Having.java"), room], input="\n".join(files) + "\n",
                         capture_output=True, text=True, timeout=1200)
    if run.returncode:
        sys.exit("members: javac could not be asked\n" + run.stderr)
    parts = re.split(r"^job \d+\n", run.stdout, flags=re.M)[1:]
    return [None if part == "refused\n" else [line.split(" = ") for line in part.splitlines()] for part in parts]


def asked(asks, groups):
    """The program's answers to each table's questions."""
    text = "".join("table\n" + "".join(line + "\n" for line in heads(program)) + "".join(question + "\n" for question, _ in answers)
                   for program, answers in groups)
    run = subprocess.run([asks], input=text, capture_output=True, text=True, timeout=600)
    return [part.splitlines() for part in run.stdout.split("table\n")[1:]]


def asked_type(table, question):
    """The type that a question is about, a generic class without arguments raw, and inside of a class its own."""
    word, first = question.split(" ")[:2]
    if word in ("overrides", "hides"):
        return table.own_type(table.methods[int(first[1:])].owner)
    name = first.split("<")[0]
    return ("raw", name) if word == "members" and first == name and table.classes[name].variables else table.own_type(name)


def types_above(table, ty):
    """A type, and those above it."""
    return [ty] + [found for above in table.supers(ty) for found in types_above(table, above)]


def reason(table, question):
    """The rule of the profile that a difference comes from, and None where there is none."""
    for ty in types_above(table, asked_type(table, question)):
        if ty[0] == "raw" and any(above[0] == "class" and above[2] for above in types_above(table, ty)):
            return "of a raw type the direct supertypes are erased"
    return None


def main():
    if shutil.which("javac") is None:
        print("skipped: a comparison of members needs javac")
        return 0
    lot = random.Random(int(os.environ.get("MEMBERS_SEED", SEED)))
    count = int(os.environ.get("MEMBERS_PROGRAMS", PROGRAMS))
    programs = [program for program in (Program(lot) for _ in range(count)) if not broken_rules(program.table, program.names)]
    with tempfile.TemporaryDirectory() as room:
        groups = [(program, answers) for program, answers in zip(programs, judged(programs, room)) if answers is not None]
    return compared(groups, asked(sys.argv[1], groups))


def compared(groups, told):
    wrong = 0
    counts, reasons = collections.Counter(), collections.Counter()
    for (program, answers), lines in zip(groups, told):
        for (question, javac), answer in zip(answers, lines):
            counts[question.split(" ")[0], javac if javac in ("Yes", "No") else ""] += 1
            if answer == javac:
                continue
            why = reason(program.table, question)
            if why is None:
                wrong += 1
                print("FAIL: %s: %s, javac: %s" % (question, answer, javac))
                print("\n".join(program.lines))
            else:
                reasons[why] += 1
    total = sum(counts.values())
    if len(groups) < LEAST or total < LEAST_ANSWERS or sum(len(lines) for lines in told) != total:
        print("FAIL: only %d answers on %d programs" % (total, len(groups)))
        wrong += 1
    if sum(reasons.values()) > MOST_BY_RULE:
        print("FAIL: %d differences by rules of the profile" % sum(reasons.values()))
        wrong += 1
    for (word, answer), number in sorted(counts.items()):
        print("members: %d answers to %s" % (number, " ".join([word, answer]).strip()))
    for why, number in reasons.most_common():
        print("members: %d differences: %s" % (number, why))
    print("members: %d answers on %d programs compared, %d wrong" % (total, len(groups), wrong))
    return 1 if wrong else 0


if __name__ == "__main__":
    sys.exit(main())
