#!/usr/bin/env python3
"""Compares the bridges of classes with those that `javac --release 7` writes: check.py ASKS

ASKS is the program that answers questions on types (crates/jc_asks). Worked programs and programs that are drawn by lot (`../headers/drawn.py`) are asked for
the bridges of each class. What javac writes and the rule doesn't has one of two reasons: the class has no body for the method, or a bridge that the class
inherits already leads to its body. And selection by name and descriptor (JVMS 6.5, invokevirtual), with these bridges, has to come to the body that each class
has for each method, as ASKS tells it.
"""
import collections
import os
import random
import re
import shutil
import subprocess
import sys
import tempfile

sys.dont_write_bytecode = True
HERE = os.path.dirname(os.path.abspath(__file__))
sys.path.insert(0, os.path.join(HERE, "..", "headers"))
sys.path.insert(0, os.path.join(HERE, "..", "members"))
from check import heads
from drawn import HEAD, INTEGER, NUMBER, OBJECT, STRING, Drawing, given
from model import Class, Method
from rules import broken_rules

SEED = 5
PROGRAMS = 800
# the least programs and bridges that are compared
LEAST = 200
LEAST_BRIDGES = 50
LETTERS = {"int": "I", "long": "J", "boolean": "Z", "char": "C", "byte": "B", "short": "S"}
PACKAGES = {name: "java/lang/" for name in ["Object", "String", "Number", "Integer"]}


def letters(table, ty):
    """The descriptor of a type's erasure (JVMS 4.3.2)."""
    if ty is None:
        return "V"
    ty = table.plain(ty)
    if ty[0] == "array":
        return "[" + letters(table, ty[1])
    return LETTERS[ty[1]] if ty[0] == "prim" else "L%s%s;" % (PACKAGES.get(ty[1], ""), ty[1])


def descriptor(table, method):
    return "(%s)%s" % ("".join(letters(table, ty) for ty in method.params), letters(table, method.result))


class Generic(Drawing):
    """A program most of whose methods have a type parameter of their class in their signatures and follow a method above."""

    def __init__(self, lot):
        self.lot, self.table, self.names, self.lines = lot, given(), [], list(HEAD)
        for number in range(lot.randint(3, 5)):
            self.add_class("C%d" % number)

    def type(self, variables, is_element=False):
        if variables and self.lot.random() < 0.6:
            return ("var", self.lot.choice(variables))
        if self.lot.random() < 0.9:
            return self.lot.choice([OBJECT, STRING, INTEGER, NUMBER])
        return ("class", "G", [("exact", self.lot.choice([STRING, INTEGER]))])

    def add_class(self, name):
        lot = self.lot
        is_interface = lot.random() < 0.4
        variables = [name + ".T"] if lot.random() < 0.55 else []
        self.table.bounds.update({variable: [lot.choice([OBJECT, OBJECT, NUMBER])] for variable in variables})
        supers = self.supertypes(is_interface, variables)
        classes = [one for one in supers if not self.table.classes[one[1]].is_interface]
        interfaces = [one for one in supers if self.table.classes[one[1]].is_interface]
        is_abstract = is_interface or lot.random() < 0.5
        one = Class(name, len(self.lines) + 1, variables, (classes or [OBJECT]) + interfaces, is_interface, is_abstract)
        self.table.classes[name] = one
        self.lines.append(self.head(one, classes, interfaces))
        for _ in range(lot.choice([0, 1, 1, 1, 2])):
            self.add_method(one)
        self.lines.append("}")
        self.names.append(name)

    def add_method(self, one):
        lot = self.lot
        method = Method(len(self.table.methods), one.name, lot.choice("mmmn"), len(self.lines) + 1, [])
        if lot.random() < 0.08:
            self.variable_of(method, [lot.choice([OBJECT, NUMBER] + [("var", name) for name in one.variables])])
        method.params = [self.type(method.variables + one.variables) for _ in range(lot.choice([0, 1, 1, 1, 2]))]
        method.result = lot.choice([None, None, self.type(method.variables + one.variables)])
        method.access = "public" if one.is_interface or lot.random() < 0.9 else lot.choice(["", "protected", "private"])
        above = [other for other in self.table.methods if any(self.table.view(other.owner, ty) for ty in one.supers)]
        if above and lot.random() < 0.92:
            self.follow(method, one, lot.choice(above))
        if lot.random() < 0.15:
            method.result = lot.choice([None, OBJECT, STRING, INTEGER, NUMBER])
        method.thrown = []
        self.finish(method, one)
        method.is_final = method.says_override = False
        if one.is_abstract and not one.is_interface:
            method.is_abstract = lot.random() < 0.3 and method.access != "private"
        method.has_body = not method.is_abstract
        self.table.methods.append(method)
        self.lines.append(self.method_line(method, one))

    def nearly(self, ty, variables):
        """A result, or one below it."""
        below = [STRING, INTEGER, NUMBER] if ty == OBJECT else [INTEGER] if ty == NUMBER else []
        return self.lot.choice(below) if below and self.lot.random() < 0.4 else ty


class Worked(Drawing):
    """A program that is written down."""

    def __init__(self, what, classes):
        self.what, self.table, self.names, self.lines = what, given(), [], list(HEAD)
        for number, (kind, bound, supers, methods) in enumerate(classes):
            self.add(number, kind, bound, supers, methods)

    def add(self, number, kind, bound, supers, methods):
        name = "C%d" % number
        variables = [name + ".T"] if bound else []
        self.table.bounds.update({variable: [bound] for variable in variables})
        above = [one for one in supers if not self.table.classes[one[1]].is_interface]
        interfaces = [one for one in supers if self.table.classes[one[1]].is_interface]
        one = Class(name, len(self.lines) + 1, variables, (above or [OBJECT]) + interfaces, kind == "interface", kind != "class")
        self.table.classes[name] = one
        self.lines.append(self.head(one, above, interfaces))
        for words, result, label, params in methods:
            method = Method(len(self.table.methods), name, label, len(self.lines) + 1, params, result)
            method.is_abstract = "abstract" in words
            method.has_body = not method.is_abstract
            method.access = "public" if "public" in words or kind == "interface" else ""
            self.table.methods.append(method)
            self.lines.append(self.method_line(method, one))
        self.lines.append("}")
        self.names.append(name)


def of(number, arg=None):
    return ("class", "C%d" % number, [("exact", arg)] if arg else [])


T = [("var", "C%d.T" % number) for number in range(6)]
PUT, BODY = ["public", "abstract"], ["public"]
# what each shows, its classes from C0 on, each with the bound of its type parameter, its supertypes and its methods, and the bridges of each class that has some
WORKED = [
    (("the body is inherited", [
        ("interface", OBJECT, [], [(PUT, None, "put", [T[0]])]),
        ("class", None, [], [(BODY, None, "put", [STRING])]),
        ("class", None, [of(1), of(0, STRING)], []),
    ]), {"C2": ["m0 m1"]}),
    (("covariant results", [
        ("class", None, [], [(BODY, OBJECT, "get", [])]),
        ("class", None, [of(0)], [(BODY, STRING, "get", [])]),
        ("class", None, [of(1)], [(BODY, STRING, "get", [])]),
    ]), {"C1": ["m0 m1"]}),
    (("two interfaces of one descriptor", [
        ("interface", OBJECT, [], [(PUT, None, "put", [T[0]])]),
        ("interface", OBJECT, [], [(PUT, None, "put", [T[1]])]),
        ("class", None, [of(0, STRING)], [(BODY, None, "put", [STRING])]),
        ("class", None, [of(2), of(1, STRING)], []),
    ]), {"C2": ["m0 m2"]}),
    (("two interfaces of two descriptors", [
        ("interface", OBJECT, [], [(PUT, None, "put", [T[0]])]),
        ("interface", NUMBER, [], [(PUT, None, "put", [T[1]])]),
        ("class", None, [of(0, INTEGER), of(1, INTEGER)], [(BODY, None, "put", [INTEGER])]),
    ]), {"C2": ["m0 m2", "m1 m2"]}),
    (("narrower bounds downwards", [
        ("interface", OBJECT, [], [(PUT, T[0], "put", [T[0]])]),
        ("class", NUMBER, [of(0, T[1])], [(BODY, T[1], "put", [T[1]])]),
        ("class", None, [of(1, INTEGER)], [(BODY, INTEGER, "put", [INTEGER])]),
        ("class", None, [of(2)], [(BODY, INTEGER, "put", [INTEGER])]),
    ]), {"C1": ["m0 m1"], "C2": ["m0 m2", "m1 m2"]}),
    (("an abstract class between", [
        ("interface", OBJECT, [], [(PUT, None, "put", [T[0]])]),
        ("abstract", None, [of(0, STRING)], []),
        ("class", None, [of(1)], [(BODY, None, "put", [STRING])]),
    ]), {"C2": ["m0 m1"]}),
    (("an abstract method between", [
        ("abstract", None, [], [(["abstract"], OBJECT, "get", [])]),
        ("abstract", None, [of(0)], [(["abstract"], STRING, "get", [])]),
        ("class", None, [of(1)], [([], STRING, "get", [])]),
    ]), {"C2": ["m0 m2"]}),
    (("a body beside an abstract method of the superclass", [
        ("abstract", OBJECT, [], [(["abstract"], None, "put", [T[0]]), ([], None, "put", [STRING])]),
        ("class", None, [of(0, STRING)], []),
    ]), {"C1": ["m0 m1"]}),
    (("the body's parameter is the wider one", [
        ("interface", None, [], [(PUT, None, "put", [STRING])]),
        ("class", OBJECT, [], [(BODY, None, "put", [T[1]])]),
        ("class", None, [of(1, STRING), of(0)], []),
    ]), {"C2": ["m0 m1"]}),
    (("a raw supertype", [
        ("interface", NUMBER, [], [(PUT, None, "put", [T[0]])]),
        ("class", None, [("raw", "C0")], [(BODY, None, "put", [NUMBER])]),
    ]), {}),
]


def judged(programs, room):
    """For each program the bridges that javac writes, and None where it is refused."""
    files = []
    for number, program in enumerate(programs):
        files.append(os.path.join(room, "P%d.java" % number))
        with open(files[-1], "w") as it:
            it.write("\n".join(program.lines) + "\n")
    run = subprocess.run(["java", "-XX:TieredStopAtLevel=1", "-XX:+UseSerialGC", os.path.join(HERE, "Bridging.java"), room], input="\n".join(files) + "\n",
                         capture_output=True, text=True, timeout=1200)
    if run.returncode:
        sys.exit("bridges: javac could not be asked\n" + run.stderr)
    parts = re.split(r"^job \d+\n", run.stdout, flags=re.M)[1:]
    return [None if part == "refused\n" else {tuple(line.split(" ")) for line in part.splitlines()} for part in parts]


def questions(program):
    classes = [name for name in program.names if not program.table.classes[name].is_interface]
    for name in classes:
        yield "bridges " + name
    for name in classes:
        for method in program.table.methods:
            if is_called(method) and is_at(program.table, name, method):
                yield "select %s m%d" % (name, method.number)


def is_called(method):
    return not method.is_static and method.access != "private"


def is_at(table, name, method):
    return method.owner == name or table.is_above(name, method.owner)


def asked(asks, programs):
    """For each program its answers by their questions."""
    asks_of = [list(questions(program)) for program in programs]
    text = "".join("table\n" + "\n".join(list(heads(program)) + lines) + "\n" for program, lines in zip(programs, asks_of))
    run = subprocess.run([asks], input=text, capture_output=True, text=True, timeout=600)
    parts = [part.splitlines() for part in run.stdout.split("table\n")[1:]]
    return [dict(zip(lines, part)) for lines, part in zip(asks_of, parts)]


class Told:
    """A program with the answers, and with javac's bridges."""

    def __init__(self, program, answers, javac):
        self.program, self.table, self.answers, self.javac = program, program.table, answers, javac
        self.keys = [(method.name, descriptor(self.table, method)) for method in self.table.methods]
        self.bridges = {name: self.pairs(answers["bridges " + name]) for name in program.names if "bridges " + name in answers}

    def pairs(self, answer):
        return [] if answer == "none" else [tuple(int(label[1:]) for label in pair.split(" ")) for pair in answer.split(" | ")]

    def above(self, name):
        while name is not None:
            yield name
            name = self.table.classes[name].supers[0][1] if self.table.classes[name].supers else None

    def selected(self, name, key):
        """The method that selection by name and descriptor finds, and whether a bridge leads there."""
        for one in self.above(name):
            for method in self.table.methods:
                if method.owner == one and is_called(method) and self.keys[method.number] == key:
                    return method.number, False
            for called, own in self.bridges.get(one, []):
                if self.keys[called] == key:
                    return own, True
        return None, False

    def run(self, name, key):
        found, is_bridge = self.selected(name, key)
        return self.selected(name, self.keys[found])[0] if is_bridge else found

    def astray(self):
        """The questions whose bodies selection doesn't come to."""
        for question, answer in self.answers.items():
            word, name, *label = question.split(" ")
            if word == "select" and answer != "none" and "m%s" % self.run(name, self.keys[int(label[0][1:])]) != answer:
                yield question, answer

    def reason(self, bridge):
        """Why javac writes a bridge and the rule doesn't, and None where there is no reason."""
        name, key = bridge[0], bridge[1:]
        bodies = [self.answers["select %s m%d" % (name, method.number)] for method in self.table.methods
                  if self.keys[method.number] == key and "select %s m%d" % (name, method.number) in self.answers]
        if all(body == "none" for body in bodies):
            return "the class has no body for the method"
        if any(above != name and (above,) + key in self.javac for above in self.above(name)):
            return "a bridge that the class inherits leads to its body"
        return None


def main():
    if shutil.which("javac") is None:
        print("skipped: a comparison of bridges needs javac")
        return 0
    lot = random.Random(int(os.environ.get("BRIDGES_SEED", SEED)))
    count = int(os.environ.get("BRIDGES_PROGRAMS", PROGRAMS))
    worked = [Worked(*one) for one, _ in WORKED]
    drawn = [program for program in (Generic(lot) for _ in range(count)) if not broken_rules(program.table, program.names)]
    with tempfile.TemporaryDirectory() as room:
        programs = [(program, javac) for program, javac in zip(worked + drawn, judged(worked + drawn, room)) if javac is not None]
    answers = asked(sys.argv[1], [program for program, _ in programs])
    told = [Told(program, answer, javac) for (program, javac), answer in zip(programs, answers)]
    return compared_worked(told) + compared(told)


def compared_worked(told):
    """Compares the worked programs with what stands beside them, and shows javac's bridges."""
    wrong = 0
    for one, (_, expected) in zip(told, WORKED):
        for name in one.bridges:
            ours = ["m%d m%d" % pair for pair in one.bridges[name]]
            theirs = sorted(" ".join(bridge[1:]) for bridge in one.javac if bridge[0] == name)
            if ours != expected.get(name, []):
                wrong = 1
                print("FAIL: %s, %s: %s, not %s" % (one.program.what, name, ours, expected.get(name, [])))
            if ours or theirs:
                print("bridges: %s, %s: %s; javac: %s" % (one.program.what, name, ["%s%s" % one.keys[pair[0]] for pair in one.bridges[name]], theirs))
    if [one.program.what for one in told[:len(WORKED)]] != [what for (what, _), _ in WORKED]:
        wrong = 1
        print("FAIL: javac refuses a worked program")
    return wrong


def compared(told):
    wrong, total, reasons = 0, 0, collections.Counter()
    for one in told:
        ours = {(name,) + one.keys[called] for name, pairs in one.bridges.items() for called, _ in pairs}
        total += len(ours)
        faults = ["%s %s %s: javac writes none" % bridge for bridge in sorted(ours - one.javac)]
        for bridge in sorted(one.javac - ours):
            why = one.reason(bridge)
            reasons[why] += 1
            faults += [] if why else ["%s %s %s: javac writes it" % bridge]
        faults += ["%s: %s, not by name and descriptor" % pair for pair in one.astray()]
        if faults:
            wrong += 1
            print("\n".join(["FAIL: " + fault for fault in faults] + one.program.lines))
    if len(told) < LEAST or total < LEAST_BRIDGES:
        print("FAIL: only %d bridges in %d programs" % (total, len(told)))
        wrong += 1
    for why, number in reasons.most_common():
        print("bridges: %d that javac writes besides: %s" % (number, why))
    print("bridges: %d bridges in %d programs compared, %d wrong" % (total, len(told), wrong))
    return 1 if wrong else 0


if __name__ == "__main__":
    sys.exit(main())
