#!/usr/bin/env python3
"""Compares conversions with those of `javac --release 7`: check.py ASKS

ASKS is the program that answers questions on types (crates/jc_asks). Tables of classes are made at random, beside Number, the classes of
primitive types, String and Comparable, and those that `javac` takes are kept. Pairs of types are asked for a conversion by an assignment,
with a constant or without, by a method invocation and by a cast. Each difference has to come from a rule that is the profile's own.
"""
import collections
import importlib.util
import os
import random
import shutil
import sys

HERE = os.path.dirname(os.path.abspath(__file__))
SPEC = importlib.util.spec_from_file_location("types_check", os.path.join(HERE, "..", "types", "check.py"))
types_check = importlib.util.module_from_spec(SPEC)
SPEC.loader.exec_module(types_check)
java, plain, OBJECT = types_check.java, types_check.plain, types_check.OBJECT

SEED = 5
TABLES = 330
QUESTIONS = 3300
LEAST = 3000
MOST_BY_RULE = 60
PRIMITIVES = ["boolean", "byte", "short", "char", "int", "long"]
BOXES = {"Integer": "int", "Long": "long", "Short": "short", "Byte": "byte", "Character": "char", "Boolean": "boolean"}
NUMBERS = ["Integer", "Long", "Short", "Byte"]
LIBRARY = list(BOXES) + ["Number", "String", "Comparable"]
CONSTANTS = [0, 1, 5, 127, 128, -1, -128, -129, 200, 32767, 32768, 65535, 65536, -32768]
RANGES = {"byte": (-128, 127), "short": (-32768, 32767), "char": (0, 65535), "int": (-2**31, 2**31 - 1)}


def flat(name):
    return ("class", name, ())


def library_head(name):
    head = types_check.Head(name, name == "Comparable")
    head.supers = [OBJECT]
    if name == "Comparable":
        head.params, head.bounds = ["CT"], [[OBJECT]]
    elif name != "Number":
        head.supers = [flat("Number") if name in NUMBERS else OBJECT, ("class", "Comparable", (("exact", flat(name)),))]
    return head


class Sample(types_check.Sample):
    """A table at random, over classes of the library."""

    def __init__(self, rng):
        super().__init__(rng)
        above = {ty[1] for head in self.heads for ty in head.supers}
        for head in self.heads:
            head.final = not head.is_interface and head.name not in above and rng.random() < 0.35

    def some_bounds(self, variables, number):
        roll = self.rng.random()
        if roll < 0.06:
            return [flat(self.rng.choice(["Integer", "Number", "Long"]))]
        if roll < 0.09:
            return [("class", "Comparable", (("exact", flat(self.rng.choice(["Integer", "String"]))),))]
        return super().some_bounds(variables, number)

    def exact_type(self, variables, depth):
        if self.rng.random() < 0.15:
            return flat(self.rng.choice(["Integer", "Number", "String", "Character", "Long"]))
        return super().exact_type(variables, depth)

    def flat_type(self):
        if self.rng.random() < 0.2:
            return flat(self.rng.choice(["Integer", "Number", "String", "Character", "Long", "Object"]))
        return super().flat_type()

    def named(self, name):
        known = [head for head in self.heads if head.name == name]
        return known[0] if known else library_head(name)

    def some_type(self, depth=2):
        roll = self.rng.random()
        if roll < 0.06:
            return flat(self.rng.choice(["Number", "String"] + list(BOXES)))
        if roll < 0.09:
            return ("class", "Comparable", (self.some_arg(depth - 1),)) if depth > 0 else ("raw", "Comparable")
        return super().some_type(depth)

    def box_or_other(self):
        rng = self.rng
        return rng.choice([self.some_type(), flat(rng.choice(list(BOXES))), ("variable", rng.choice(types_check.VARIABLES))])

    def pair(self, kind):
        """Two types, of which the first may convert to the second."""
        rng = self.rng
        roll = rng.random()
        if roll < 0.12:
            return primitive(rng), primitive(rng)
        if roll < 0.22:
            return primitive(rng), self.box_or_other()
        if roll < 0.36:
            return self.box_or_other(), primitive(rng)
        if roll < 0.39:
            return ("null",), rng.choice([self.some_type(), primitive(rng)])
        if roll < 0.75:
            one = self.some_type()
            other = self.other(one)
            return (other, one) if kind == "cast" and rng.random() < 0.6 else (one, other)
        return self.some_type(), self.some_type()

    def java_heads(self):
        for head in self.heads:
            text = head.java()
            yield text.replace("static class", "static final class", 1) if head.final else text

    def plain_heads(self):
        """In the words of ASKS, the classes of the library under their whole names."""
        for name in ["Number", "Comparable"] + list(BOXES) + ["String"]:
            head = library_head(name)
            text = head.plain()
            yield named(text if name in ("Number", "Comparable") else "final" + text.removeprefix("class"))
        for head in self.heads:
            text = head.plain()
            yield named("final" + text.removeprefix("class") if head.final else text)


def named(text):
    """The same with the library's classes under their whole names."""
    out, word = "", ""
    for letter in text + " ":
        if letter.isalnum():
            word += letter
        else:
            out += ("java.lang." + word if word in LIBRARY else word) + letter
            word = ""
    return out[:-1]


def primitive(rng):
    return ("primitive", rng.choice(PRIMITIVES))


def is_primitive(ty):
    return ty[0] == "primitive"


def words(ty):
    return "null" if ty == ("null",) else named(plain(ty))


def constant_of(rng, kind, ty):
    """A constant of a primitive type, and None where the expression is to have no constant value."""
    if kind != "assign" or not is_primitive(ty) or ty[1] == "boolean" or rng.random() < 0.4:
        return None
    value = rng.choice(CONSTANTS)
    low, high = RANGES.get(ty[1], (-2**63, 2**63))
    return min(max(value, low), high)


def expression(ty, constant):
    if ty == ("null",):
        return "null"
    if constant is None:
        return "s"
    suffix = "L" if ty[1] == "long" else ""
    text = f"{constant}{suffix}"
    return text if ty[1] in ("int", "long") else f"({ty[1]}) ({text})"


def statement(sample, number, kind, one, other, constant):
    """A line of Java that converts, and that `javac` takes where the conversion is one."""
    value = expression(one, constant)
    taken = java(one) + " s" if value == "s" else ""
    params = types_check.type_parameters(sample)
    if kind == "assign":
        return f"static {params}void q{number}({taken}) {{ {java(other)} x = {value}; }}"
    if kind == "cast":
        return f"static {params}void q{number}({taken}) {{ Object x = ({java(other)}) ({value}); }}"
    return f"static class G{number}{params.strip()} {{ void m({java(other)} x) {{}} void q({taken}) {{ m({value}); }} }}"


def is_unsettled(arg):
    return arg[0] != "exact" or arg[1][0] == "variable"


def has_unsettled(sample, types):
    above = [ty for head in sample.heads for ty in head.supers] + [bound for _, bounds in sample.variables for bound in bounds]
    return any(is_unsettled(arg) for ty in list(types) + above if ty != ("null",) for arg in types_check.all_args(ty))


def reason(sample, kind, one, other, answer, report):
    """The rule of the profile that a difference comes from, and None where there is none."""
    if answer == "Deep":
        return "a question deeper than 64 has no answer"
    if is_primitive(other) and one[0] == "class" and any(arg[0] != "exact" for arg in one[2]):
        return "a box is asked to be below the type as it stands, without capture"
    if is_primitive(one) or is_primitive(other) or one == ("null",):
        return None
    if kind == "cast" and has_unsettled(sample, (one, other)):
        return "an argument that is a wildcard or a variable is distinct by its bound's erasure (JLS 4.5.1)"
    if answer == "No" and types_check.may_be_raw(sample, one):
        return "of a raw type the direct supertypes are erased"
    return types_check.reason(sample, "below", one, other, answer, report)


def taken_samples(rng, tables):
    """The tables that javac takes, of so many that are made at random."""
    samples = [Sample(rng) for _ in range(tables)]
    source = types_check.Source()
    spans = []
    for number, sample in enumerate(samples):
        first = source.add(f"class S{number} {{")
        for line in sample.java_heads():
            source.add(line)
        source.add("static " + types_check.type_parameters(sample) + "void variables() {}")
        spans.append((first, source.add("}")))
    reports = types_check.told(source)
    return [sample for sample, (first, last) in zip(samples, spans)
            if not any(is_error(reports, line) for line in range(first, last + 1))]


def is_error(reports, line):
    return any("compiler.err" in text for text in reports.get(line, []))


def asked(program, groups):
    """The answers to each sample's questions."""
    class Words:
        def __init__(self, sample):
            self.heads = [Line(text) for text in sample.plain_heads()]
            self.variables = []
            self.bounds = "variable " + " ".join(types_check.bounded(*pair) for pair in sample.variables)

    class Line:
        def __init__(self, text):
            self.text = text

        def plain(self):
            return self.text

    prepared = []
    for sample, questions in groups:
        table = Words(sample)
        table.heads.append(Line(named(table.bounds)))
        prepared.append((table, questions))
    return types_check.asked(program, prepared)


def main():
    program = sys.argv[1:]
    if shutil.which("javac") is None:
        print("skipped: a comparison of conversions needs javac")
        return 0
    rng = random.Random(int(os.environ.get("CONVERSIONS_SEED", SEED)))
    samples = taken_samples(rng, TABLES)
    per_sample = QUESTIONS // max(1, len(samples)) + 12
    source = types_check.Source()
    rows, groups = [], []
    for number, sample in enumerate(samples):
        source.add(f"class S{number} {{")
        for line in sample.java_heads():
            source.add(line)
        questions = []
        for at in range(per_sample):
            kind = rng.choice(["assign", "cast", "cast", "invoke"])
            one, other = sample.pair(kind)
            constant = constant_of(rng, kind, one)
            well_formed = [source.add(f"static {types_check.type_parameters(sample)}void w{at}{side}({java(ty)} t) {{}}")
                           for side, ty in (("a", one), ("b", other)) if ty != ("null",)]
            line = source.add(statement(sample, at, kind, one, other, constant))
            questions.append(f"{kind} {words(one)} {words(other)}" + ("" if constant is None else f" {constant}"))
            rows.append((number, len(questions) - 1, kind, one, other, constant, well_formed, line))
        source.add("}")
        groups.append((sample, questions))
    reports = types_check.told(source)
    answers = asked(program, groups)
    return compared(samples, rows, reports, answers)


def compared(samples, rows, reports, answers):
    wrong = 0
    counts, reasons = collections.Counter(), collections.Counter()
    for number, at, kind, one, other, constant, well_formed, line in rows:
        if any(is_error(reports, formed) for formed in well_formed):
            continue
        answer = answers[number][at].split(" ")[0]
        takes = not is_error(reports, line)
        counts[(kind, takes)] += 1
        if (answer == "Yes") == takes:
            continue
        why = reason(samples[number], kind, one, other, answer, reports.get(line, []))
        if why is None:
            wrong += 1
            print(f"FAIL: {kind} {words(one)} to {words(other)} {constant}: {answers[number][at]}, javac {'takes' if takes else 'refuses'} it")
        else:
            reasons[why] += 1
    total = sum(counts.values())
    if total < LEAST:
        print(f"FAIL: only {total} conversions")
        wrong += 1
    by_rule = sum(reasons.values())
    if by_rule > MOST_BY_RULE:
        print(f"FAIL: {by_rule} differences by rules of the profile")
        wrong += 1
    for (kind, takes), count in sorted(counts.items()):
        print(f"conversions: {count} of kind {kind} that javac {'takes' if takes else 'refuses'}")
    for why, count in reasons.most_common():
        print(f"conversions: {count} differences: {why}")
    print(f"conversions: {total} compared, {wrong} wrong")
    return 1 if wrong else 0


if __name__ == "__main__":
    sys.exit(main())
