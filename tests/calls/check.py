#!/usr/bin/env python3
"""Compares the members that calls mean with those of `javac --release 7`: check.py ASKS

ASKS is the program that answers questions on types (crates/jc_asks). Over tables of classes that are made at random stand methods of one name, generic ones and
such with any number of arguments among them, and calls of them. Each method has a class of its own as its result, so what `javac` says of an initialiser
of each of these classes tells which method it takes the call to mean, or why none. Each difference has to come from a rule that is the profile's own.
"""
import collections
import importlib.util
import os
import random
import shutil
import sys

HERE = os.path.dirname(os.path.abspath(__file__))


def loaded(name, *path):
    spec = importlib.util.spec_from_file_location(name, os.path.join(HERE, "..", *path))
    module = importlib.util.module_from_spec(spec)
    spec.loader.exec_module(module)
    return module


conversions = loaded("conversions_check", "conversions", "check.py")
types_check = conversions.types_check
java, plain, named, flat, OBJECT = types_check.java, types_check.plain, conversions.named, conversions.flat, types_check.OBJECT

SEED = 11
TABLES = 200
CALLS = 1300
LEAST = 1000
MOST_MEMBERS = 4


class Member:
    """A method of the name: its type parameters with their bounds, its parameters, and whether the last one takes any number of arguments."""

    def __init__(self, sample, call, number, count):
        rng = sample.rng
        names = [f"V{call}x{number}{letter}" for letter in "AB"[:rng.choice([0, 0, 0, 1, 1, 2])]]
        self.number = number
        self.variables = [(name, own_bounds(sample)) for name in names]
        self.params = [own_type(sample, names) for _ in range(count)]
        self.variable = bool(self.params) and rng.random() < 0.25
        if self.variable and self.params[-1][0] != "array":
            self.params[-1] = ("array", self.params[-1])

    def java(self):
        params = [java(ty) for ty in self.params]
        if self.variable:
            params[-1] = params[-1][:-2] + "..."
        heads = ", ".join(types_check.java_bounded(*pair) for pair in self.variables)
        words = ", ".join(f"{text} p{at}" for at, text in enumerate(params))
        return f"{'<' + heads + '> ' if heads else ''}R{self.number} m({words}) {{ return null; }}"

    def words(self):
        heads = " ".join(name for name, _ in self.variables)
        params = " ".join(named(plain(ty)) for ty in self.params)
        return f"{'variable' if self.variable else 'fixed'} {heads} : Object {params}"


def own_bounds(sample):
    roll = sample.rng.random()
    if roll < 0.2:
        return [flat(sample.rng.choice(["Number", "Integer"]))]
    if roll < 0.35:
        return sample.some_bounds([], 0)
    return [OBJECT]


def own_type(sample, names):
    rng = sample.rng
    variables = [("variable", name) for name in names]
    roll = rng.random()
    if variables and roll < 0.3:
        return rng.choice(variables)
    if variables and roll < 0.6:
        generic = [head for head in sample.heads if head.params]
        if generic:
            head = rng.choice(generic)
            return ("class", head.name, tuple(own_arg(sample, variables) for _ in head.params))
    if roll < 0.75:
        return conversions.primitive(rng)
    if roll < 0.87:
        return flat(rng.choice(["Integer", "Long", "Number", "String", "Character", "Object"]))
    return sample.some_type(1)


def own_arg(sample, variables):
    inner = sample.rng.choice(variables) if sample.rng.random() < 0.8 else flat(sample.rng.choice(["Integer", "Number"]))
    return sample.rng.choice([("exact", inner), ("exact", inner), ("extends", inner), ("super", inner)])


def exact(sample, ty, by):
    """The type without wildcards of its own, and with types for a member's type parameters."""
    kind = ty[0]
    if kind == "variable" and ty[1] in by:
        return by[ty[1]]
    if kind == "array":
        return ("array", exact(sample, ty[1], by))
    if kind == "class" and ty[2]:
        return ("class", ty[1], tuple(("exact", OBJECT if arg[0] == "any" else exact(sample, arg[1], by)) for arg in ty[2]))
    return ty


def argument(sample, ty, by):
    rng = sample.rng
    ty = exact(sample, ty, by)
    roll = rng.random()
    if roll < 0.06:
        return ("null",)
    if ty[0] == "primitive":
        box = next(name for name, word in conversions.BOXES.items() if word == ty[1])
        return rng.choice([ty, ty, flat(box), conversions.primitive(rng)])
    if roll < 0.2:
        return rng.choice([conversions.primitive(rng), flat(rng.choice(list(conversions.BOXES)))])
    if roll < 0.3:
        return exact(sample, sample.some_type(1), by)
    return ty


def instance(sample, member):
    choices = [flat("Integer"), flat("String"), flat("Long"), OBJECT] + [flat(head.name) for head in sample.heads if not head.params]
    return {name: sample.rng.choice(choices) for name, _ in member.variables}


class Call:
    def __init__(self, sample, number):
        rng = sample.rng
        count = rng.choice([1, 1, 1, 2, 2, 3])
        self.members = [Member(sample, number, at, count if rng.random() < 0.85 else rng.choice([0, 1, 2])) for at in range(rng.randint(1, MOST_MEMBERS))]
        shown = rng.choice(self.members)
        by = instance(sample, shown)
        self.args = [argument(sample, ty, by) for ty in shown.params]
        if shown.variable and rng.random() < 0.7:
            last = shown.params[-1][1]
            self.args[-1:] = [argument(sample, last, by) for _ in range(rng.choice([0, 1, 1, 2]))]

    def words(self):
        args = " ".join(conversions.words(ty) for ty in self.args)
        return "call : " + args + " : " + "".join(" | " + member.words() for member in self.members)

    def formed(self):
        """Questions on the types of the members and of the arguments. The rule on super wildcards refuses some types that javac takes."""
        types = [ty for member in self.members for ty in member.params] + [ty for ty in self.args if ty != ("null",)]
        return ["formed " + conversions.words(ty) for ty in types]

    def queries(self):
        """For each member a line that javac takes where the call means that one."""
        taken = ", ".join(f"{java(ty)} s{at}" for at, ty in enumerate(self.args) if ty != ("null",))
        values = ", ".join("null" if ty == ("null",) else f"s{at}" for at, ty in enumerate(self.args))
        for member in self.members:
            yield f"void q{member.number}({taken}) {{ R{member.number} x = m({values}); }}"


def meant(reports, lines):
    """What javac says of a call."""
    taken = [at for at, line in enumerate(lines) if not conversions.is_error(reports, line)]
    if len(taken) == 1:
        return f"Chosen {taken[0]}"
    texts = " ".join(text for line in lines for text in reports.get(line, []))
    if "ref.ambiguous" in texts:
        return "Ambiguous"
    if "cant.apply" in texts:
        return "NoneApplicable"
    return None


def said(answer):
    words = answer.split(" ")
    return " ".join(words[:2]) if words[0] == "Chosen" else words[0]


def reason(sample, call, answer, javac):
    """The rule of the profile that a difference comes from, and None where there is none."""
    if answer == "Deep":
        return "a question deeper than 64 has no answer"
    return None


def main():
    program = sys.argv[1:]
    if shutil.which("javac") is None:
        print("skipped: a comparison of calls needs javac")
        return 0
    rng = random.Random(int(os.environ.get("CALLS_SEED", SEED)))
    samples = conversions.taken_samples(rng, TABLES)
    source = types_check.Source()
    for number in range(MOST_MEMBERS):
        source.add(f"class R{number} {{}}")
    rows, groups = [], []
    for number, sample in enumerate(samples):
        source.add(f"class S{number} {{")
        for line in sample.java_heads():
            source.add(line)
        calls = [Call(sample, at) for at in range(CALLS // max(1, len(samples)) + 4)]
        questions = []
        for at, call in enumerate(calls):
            first = source.add(f"static class G{at}{types_check.type_parameters(sample).strip()} {{")
            for member in call.members:
                source.add(member.java())
            declared = range(first, len(source.lines) + 1)
            lines = [source.add(line) for line in call.queries()]
            source.add("}")
            rows.append((number, len(questions), call, declared, lines))
            questions += [call.words()] + call.formed()
        source.add("}")
        variables = [pair for call in calls for member in call.members for pair in member.variables]
        groups.append((with_variables(sample, variables), questions))
    reports = types_check.told(source)
    return compared(samples, rows, reports, conversions.asked(program, groups))


def with_variables(sample, variables):
    """The table with the type parameters of the members."""
    class Wider:
        def __init__(self):
            self.variables = sample.variables + variables

        def plain_heads(self):
            return sample.plain_heads()

    return Wider()


def compared(samples, rows, reports, answers):
    wrong = 0
    counts, reasons = collections.Counter(), collections.Counter()
    for number, at, call, declared, lines in rows:
        formed = answers[number][at + 1:at + 1 + len(call.formed())]
        if any(conversions.is_error(reports, line) for line in declared) or any(answer != "Yes" for answer in formed):
            continue
        javac, answer = meant(reports, lines), said(answers[number][at])
        if javac is None:
            continue
        counts[javac.split(" ")[0]] += 1
        if javac == answer:
            continue
        why = reason(samples[number], call, answer, javac)
        if why is None:
            wrong += 1
            print(f"FAIL: {call.words()}: {answers[number][at]}, javac: {javac}")
        else:
            reasons[why] += 1
    total = sum(counts.values())
    if total < LEAST:
        print(f"FAIL: only {total} calls")
        wrong += 1
    for word, count in sorted(counts.items()):
        print(f"calls: {count} that javac takes as {word}")
    for why, count in reasons.most_common():
        print(f"calls: {count} differences: {why}")
    print(f"calls: {total} compared, {wrong} wrong")
    return 1 if wrong else 0


if __name__ == "__main__":
    sys.exit(main())
