#!/usr/bin/env python3
"""Compares what is said of types with what `javac --release 7` says: check.py ASKS

ASKS is the program that answers questions on types (crates/jc_asks). Tables of classes are made at random, and those that `javac` takes
are kept. Of each some types are asked whether they are well formed, which `javac` says of a parameter with that type, and some pairs
whether one is below the other, which it says of an assignment. Each difference has to come from a rule that is the profile's own.
"""
import itertools
import os
import random
import re
import shutil
import subprocess
import sys
import tempfile

SEED = 7
TABLES = 330
QUESTIONS = 5000
LEAST = 100
DIAGNOSTIC = re.compile(r"^Main\.java:(\d+):\d+: (compiler\.\S+)(.*)")
VARIABLES = ["P", "Q", "R"]


# types: ("class", name, args), ("raw", name), ("array", type), ("variable", name), ("primitive", word); args: ("exact", type), ("any",),
# ("extends", type), ("super", type)


def plain(ty):
    """In the words of ASKS."""
    kind = ty[0]
    if kind == "class":
        return ty[1] + ("<" + ",".join(plain_arg(arg) for arg in ty[2]) + ">" if ty[2] else "")
    if kind == "array":
        return plain(ty[1]) + "[]"
    return ty[1]


def plain_arg(arg):
    if arg[0] == "any":
        return "?"
    return {"exact": "", "extends": "+", "super": "-"}[arg[0]] + plain(arg[1])


def java(ty):
    kind = ty[0]
    if kind == "class":
        return ty[1] + ("<" + ", ".join(java_arg(arg) for arg in ty[2]) + ">" if ty[2] else "")
    if kind == "array":
        return java(ty[1]) + "[]"
    return ty[1]


def java_arg(arg):
    if arg[0] == "any":
        return "?"
    return {"exact": "", "extends": "? extends ", "super": "? super "}[arg[0]] + java(arg[1])


OBJECT = ("class", "Object", ())


class Head:
    def __init__(self, name, is_interface):
        self.name = name
        self.is_interface = is_interface
        self.params = []
        self.bounds = []
        self.supers = []

    def plain(self):
        params = " ".join(bounded(*pair) for pair in zip(self.params, self.bounds))
        supers = " ".join(plain(ty) for ty in self.supers)
        return f"{'interface' if self.is_interface else 'class'} {self.name} {params} : {supers}"

    def java(self):
        text = "interface " if self.is_interface else "static class "
        text += self.name
        if self.params:
            text += "<" + ", ".join(java_bounded(*pair) for pair in zip(self.params, self.bounds)) + ">"
        interfaces = [java(ty) for ty in self.supers[1:]]
        if self.is_interface:
            return text + (" extends " + ", ".join(interfaces) if interfaces else "") + " {}"
        text += " extends " + java(self.supers[0])
        return text + (" implements " + ", ".join(interfaces) if interfaces else "") + " {}"


def bounded(name, bounds):
    if bounds == [OBJECT]:
        return name
    if len(bounds) == 1:
        return name + ":" + plain(bounds[0])
    return name + ":{" + "&".join(plain(bound) for bound in bounds) + "}"


def java_bounded(name, bounds):
    return name if bounds == [OBJECT] else name + " extends " + " & ".join(java(bound) for bound in bounds)


class Sample:
    """A table at random, with the types that are asked of it."""

    def __init__(self, rng):
        self.rng = rng
        self.heads = []
        self.variables = []
        for number in range(rng.randint(5, 9)):
            self.add_head(number)
        for number, name in enumerate(VARIABLES):
            known = [("variable", other) for other in VARIABLES[:number]]
            bounds = [rng.choice(known)] if known and rng.random() < 0.3 else self.some_bounds(known, number)
            self.variables.append((name, bounds))

    def add_head(self, number):
        rng = self.rng
        is_interface = rng.random() < 0.5
        head = Head(f"{'I' if is_interface else 'C'}{number}", is_interface)
        count = rng.choice([0, 0, 1, 1, 1, 2])
        head.params = [f"T{number}{letter}" for letter in "AB"[:count]]
        variables = [("variable", name) for name in head.params]
        classes = [OBJECT] if is_interface else [self.super_of(variables, False)]
        interfaces = []
        for _ in range(rng.choice([0, 1, 1, 2])):
            ty = self.super_of(variables, True)
            if ty is not None and all(ty[1] != other[1] for other in interfaces):
                interfaces.append(ty)
        head.supers = classes + interfaces
        self.heads.append(head)
        for _ in head.params:
            if rng.random() < 0.15:
                others = [var for var in variables if var[1] < head.params[len(head.bounds)]]
                head.bounds.append([rng.choice(others)] if others else [OBJECT])
            else:
                head.bounds.append(self.some_bounds(variables, number))

    def some_bounds(self, variables, number):
        rng = self.rng
        if rng.random() < 0.45:
            return [OBJECT]
        bounds = [self.exact_class(variables, None, 1)]
        if rng.random() < 0.2:
            second = self.exact_class(variables, True, 1)
            if second is not None and second[1] != bounds[0][1]:
                bounds.append(second)
        return bounds

    def super_of(self, variables, is_interface):
        found = self.exact_class(variables, is_interface, 1)
        return OBJECT if found is None and not is_interface else found

    def exact_class(self, variables, is_interface, depth):
        heads = [head for head in self.heads if is_interface is None or head.is_interface == is_interface]
        if not heads:
            return None if is_interface else OBJECT
        head = self.rng.choice(heads)
        if head.params and self.rng.random() < 0.06:
            return ("raw", head.name)
        return ("class", head.name, tuple(("exact", self.exact_type(variables, depth)) for _ in head.params))

    def exact_type(self, variables, depth):
        rng = self.rng
        if variables and rng.random() < 0.5:
            return rng.choice(variables)
        if depth == 0 or not self.heads:
            flat = [head for head in self.heads if not head.params]
            return ("class", rng.choice(flat).name, ()) if flat else OBJECT
        return self.exact_class(variables, None, depth - 1)

    def named(self, name):
        return next(head for head in self.heads if head.name == name)

    def some_type(self, depth=2):
        rng = self.rng
        roll = rng.random()
        if roll < 0.12:
            return ("variable", rng.choice(VARIABLES))
        if roll < 0.20:
            inner = self.some_type(depth)
            return ("array", inner)
        if roll < 0.23:
            return ("array", ("primitive", rng.choice(["int", "char"])))
        if roll < 0.27:
            return OBJECT
        return self.class_type(rng.choice(self.heads), depth)

    def class_type(self, head, depth):
        rng = self.rng
        if not head.params:
            return ("class", head.name, ())
        if rng.random() < 0.06:
            return ("raw", head.name)
        return ("class", head.name, tuple(self.some_arg(depth - 1) for _ in head.params))

    def some_arg(self, depth):
        roll = self.rng.random()
        if roll < 0.15:
            return ("any",)
        inner = self.some_type(depth) if depth > 0 else self.flat_type()
        if roll < 0.40:
            return ("extends", inner)
        if roll < 0.55:
            return ("super", inner)
        return ("exact", inner)

    def flat_type(self):
        rng = self.rng
        flat = [("class", head.name, ()) for head in self.heads if not head.params] + [("variable", name) for name in VARIABLES]
        return rng.choice(flat)

    # a type that may be above another

    def looser(self, ty):
        rng = self.rng
        if ty[0] == "array" and ty[1][0] != "primitive":
            return ("array", self.looser(ty[1]))
        if ty[0] == "variable":
            bounds = dict(self.variables)[ty[1]]
            return self.looser(rng.choice(bounds)) if rng.random() < 0.7 else ty
        if ty[0] == "raw":
            head = self.named(ty[1])
            if rng.random() < 0.4:
                return ("class", head.name, tuple(self.some_arg(1) for _ in head.params))
            return self.raised_raw(ty[1])
        if ty[0] != "class" or ty == OBJECT:
            return ty
        while rng.random() < 0.6:
            up = self.raised(ty)
            if up[0] != "class" or up == OBJECT:
                return up if rng.random() < 0.3 else ty
            ty = up
        if ty[2] and rng.random() < 0.12:
            return ("raw", ty[1])
        return ("class", ty[1], tuple(self.looser_arg(arg) for arg in ty[2]))

    def raised_raw(self, name):
        supers = self.named(name).supers
        ty = self.rng.choice(supers)
        return ("raw", ty[1]) if ty[0] == "raw" or ty[2] else ty

    def raised(self, ty):
        """A declared supertype with the arguments put in, wildcards too."""
        head = self.named(ty[1])
        if len(ty[2]) != len(head.params):
            return ty
        return put(dict(zip(head.params, ty[2])), self.rng.choice(head.supers))

    def other(self, ty):
        """A type that is asked to be above another."""
        roll = self.rng.random()
        if roll < 0.65:
            return self.looser(ty)
        if roll < 0.9:
            return self.looser(self.changed(ty))
        return self.some_type()

    def changed(self, ty):
        """The same class, with an argument that may be another one."""
        if ty[0] == "array":
            return ("array", self.changed(ty[1]))
        if ty[0] != "class" or not ty[2]:
            return self.some_type()
        at = self.rng.randrange(len(ty[2]))
        return ("class", ty[1], ty[2][:at] + (self.some_arg(1),) + ty[2][at + 1:])

    def looser_arg(self, arg):
        rng = self.rng
        roll = rng.random()
        if roll < 0.45:
            return arg
        if arg[0] == "any" or roll < 0.55:
            return ("any",)
        if arg[0] == "super":
            return arg
        return ("extends", self.looser(arg[1]))


def put(by, ty):
    if ty[0] != "class":
        return ty
    args = []
    for arg in ty[2]:
        if arg[0] == "exact" and arg[1][0] == "variable" and arg[1][1] in by:
            args.append(by[arg[1][1]])
        elif arg[0] == "any":
            args.append(arg)
        else:
            args.append((arg[0], put_inside(by, arg[1])))
    return ("class", ty[1], tuple(args))


def put_inside(by, ty):
    """Inside another type a wildcard's bound stands for it."""
    if ty[0] == "variable" and ty[1] in by:
        arg = by[ty[1]]
        return arg[1] if len(arg) > 1 else OBJECT
    return put(by, ty)


# what javac says


class Source:
    def __init__(self):
        self.lines = []

    def add(self, line):
        """The number of the line."""
        self.lines.append(line)
        return len(self.lines)

    def table(self, number, sample):
        first = self.add(f"class S{number} {{")
        for head in sample.heads:
            self.add(head.java())
        self.add("static " + type_parameters(sample) + "void variables() {}")
        return first


def type_parameters(sample):
    return "<" + ", ".join(java_bounded(*pair) for pair in sample.variables) + "> "


def told(source):
    """The keys of what javac reports, by line."""
    with tempfile.TemporaryDirectory() as folder:
        with open(os.path.join(folder, "Main.java"), "w") as file:
            file.write("\n".join(source.lines) + "\n")
        command = ["javac", "--release", "7", "-Xlint:unchecked", "-Xmaxerrs", "100000", "-Xmaxwarns", "100000", "-XDrawDiagnostics",
                   "-proc:none", "-d", folder, "Main.java"]
        run = subprocess.run(command, cwd=folder, capture_output=True, text=True)
    reports = {}
    for line in (run.stdout + run.stderr).splitlines():
        found = DIAGNOSTIC.match(line)
        if found:
            reports.setdefault(int(found.group(1)), []).append(found.group(2) + found.group(3))
    if run.returncode not in (0, 1):
        raise SystemExit("javac failed:\n" + run.stderr[-2000:])
    return reports


def taken_samples(rng):
    samples = [Sample(rng) for _ in range(TABLES)]
    source = Source()
    spans = []
    for number, sample in enumerate(samples):
        first = source.table(number, sample)
        spans.append((first, source.add("}")))
    reports = told(source)
    return [sample for sample, (first, last) in zip(samples, spans)
            if not any(line in reports for line in range(first, last + 1))]


# what ASKS says


def asked(program, groups):
    """The answers to each sample's questions."""
    lines = []
    for sample, questions in groups:
        lines.append("table")
        lines += [head.plain() for head in sample.heads]
        lines.append("variable " + " ".join(bounded(*pair) for pair in sample.variables))
        lines += questions
    run = subprocess.run(program, input="\n".join(lines) + "\n", capture_output=True, text=True)
    answers = []
    for line in run.stdout.splitlines():
        if line == "table":
            answers.append([])
        elif answers:
            answers[-1].append(line)
    counts = [len(questions) for _, questions in groups]
    if [len(part) for part in answers] != counts:
        raise SystemExit("FAIL: the program gave another number of answers\n" + run.stderr[-2000:])
    return answers


# differences


def has_wildcard(ty):
    return ty[0] == "class" and any(arg[0] != "exact" for arg in ty[2])


def inner_types(ty):
    """The types inside an array or an argument."""
    if ty[0] == "array":
        yield from all_types(ty[1])
    if ty[0] == "class":
        for arg in ty[2]:
            if len(arg) > 1:
                yield from all_types(arg[1])


def all_types(ty):
    yield ty
    yield from inner_types(ty)


def all_args(ty):
    return [arg for inner in all_types(ty) if inner[0] == "class" for arg in inner[2]]


def names_in(ty):
    return {inner[1] for inner in all_types(ty) if inner[0] == "variable"}


def bound_names_wildcard(sample, ty):
    """A parameter's bound names another one, for which a wildcard stands."""
    if ty[0] != "class" or not ty[2]:
        return False
    head = sample.named(ty[1])
    wild = {name for name, arg in zip(head.params, ty[2]) if arg[0] != "exact"}
    return any(names_in(bound) & (wild - {name}) for name, bounds in zip(head.params, head.bounds) for bound in bounds)


def may_be_raw(sample, ty):
    supers = [above for head in sample.heads for above in head.supers]
    return any(inner[0] == "raw" for inner in list(all_types(ty)) + supers)


def reason(sample, kind, one, other, answer, report):
    """The rule of the profile that a difference comes from, and None where there is none."""
    if answer in ("406", "Deep"):
        return "a question deeper than 64 has no answer"
    if kind == "wellformed":
        errors = [text for text in report if text.startswith("compiler.err")]
        if answer.startswith("403") and any(arg[0] == "super" for arg in all_args(one)):
            return "the lower bound of a super wildcard is below the declared bound"
        if answer == "Yes" and all("not.within.bounds: ? extends" in text for text in errors):
            return "an extends wildcard stands where no two classes meet in its bound"
        if answer.startswith("402") and any(bound_names_wildcard(sample, inner) for inner in all_types(one)):
            return "a bound is asked with the captured arguments, not with wildcards"
        return None
    if answer == "No" and may_be_raw(sample, one) and any(arg[0] == "any" for arg in all_args(other)):
        return "a raw type is below no parameterized one"
    if answer == "No" and any(has_wildcard(inner) for inner in inner_types(one)):
        return "the type of an element or of an argument is captured before it is asked about"
    return None


# types that are large


DIMENSIONS = 100000
PARAMETERS = 100000
GENEROUS_SECONDS = 400


def large_lines():
    """Questions on arrays of many dimensions and a class of many parameters, with their answers."""
    array = "Object" + "[]" * DIMENSIONS
    exact = "Wide<" + ",".join(["Object"] * PARAMETERS) + ">"
    wild = "Wide<" + ",".join(["?"] * PARAMETERS) + ">"
    captured = "Wide<" + ",".join(f"#{number}" for number in range(PARAMETERS)) + ">"
    fresh = "".join(f" #{number}:Object" for number in range(PARAMETERS))
    return [
        (f"below {array} Object[]", "Yes"),
        (f"below {array} {array}", "Yes"),
        (f"below {array} Wide[]", "No"),
        (f"contained {array} +Object[]", "Yes"),
        (f"capture {array}", array),
        (f"glb {array} Object", array),
        (f"erasure {array}", f"Object dimensions {DIMENSIONS}"),
        (f"wellformed {array}", "Yes"),
        (f"formed {array}", "Yes"),
        (f"faults {array}", ""),
        (f"view {array} Object", "Object"),
        (f"size {array}", str(DIMENSIONS + 1)),
        (f"same {array} {array}", "Yes"),
        (f"same {array} {array}[]", "No"),
        (f"reifiable {array}", "Yes"),
        (f"element {array}", array[:-2]),
        (f"inside {array}", "1"),
        (f"below {exact} {wild}", "Yes"),
        (f"below {wild} {exact}", "No"),
        (f"below {exact} {exact}", "Yes"),
        (f"contained {exact} +{wild}", "Yes"),
        (f"capture {wild}", captured + fresh),
        (f"glb {exact} Object", exact),
        (f"erasure {wild}", "Wide"),
        (f"wellformed {wild}", "Yes"),
        (f"formed {exact}", "Yes"),
        (f"faults {exact}", ""),
        (f"view {exact} Up", "Up<" + exact + ">"),
        (f"size {wild}", str(PARAMETERS + 1)),
        (f"same {wild} {exact}", "No"),
        (f"reifiable {wild}", "Yes"),
        (f"reifiable {exact}", "No"),
        (f"inside {exact}", str(PARAMETERS + 1)),
        (f"view {classes('Over')} Wide", classes("Wide")),
        (f"view {classes('Turned')} Wide", classes("Wide", reversed)),
        (f"below {classes('Over')} {classes('Wide')}", "Yes"),
        (f"below {classes('Turned')} {classes('Wide')}", "No"),
        (f"below {wild_of('Turned')} {wild}", "Yes"),
        (f"capture {wild_of('Ring')}", captured_ring()),
        (f"wellformed {wild_of('Ring')}", "Yes"),
        (f"formed {wild_of('Ring')}", "Yes"),
        (f"faults {wild_of('Ring')}", ""),
    ]


def numbers():
    return range(PARAMETERS)


def classes(name, order=iter):
    """A class of many parameters with other arguments in turn."""
    return f"{name}<" + ",".join(["Object", "Plain"][number % 2] for number in order(numbers())) + ">"


def wild_of(name):
    return f"{name}<" + ",".join("?" for _ in numbers()) + ">"


def captured_ring():
    """The variable of each parameter is below a type of the next one."""
    first = PARAMETERS
    fresh = [f"#{first + number}" for number in numbers()]
    bounds = [f"Up<{other}>" for other in fresh[1:] + fresh[:1]]
    return "Ring<" + ",".join(fresh) + ">" + "".join(f" {var}:{bound}" for var, bound in zip(fresh, bounds))


def large_heads():
    """One class with many parameters, and others that name all parameters in their supertype or in their bounds."""
    params = [f"A{number}" for number in numbers()]
    over = [f"B{number}" for number in numbers()]
    turned = [f"C{number}" for number in numbers()]
    ring = [f"D{number}" for number in numbers()]
    bounded_ring = " ".join(f"{name}:Up<{other}>" for name, other in zip(ring, ring[1:] + ring[:1]))
    return [
        "interface Up U : Object",
        "class Plain : Object",
        f"class Wide {' '.join(params)} : Object Up<Wide<{','.join(params)}>>",
        f"class Over {' '.join(over)} : Wide<{','.join(over)}>",
        f"class Turned {' '.join(turned)} : Wide<{','.join(reversed(turned))}>",
        f"class Ring {bounded_ring} : Object",
    ]


def large_answers(program):
    """Whether each call on a large type ends with the answer that it has to have."""
    asked_of = large_lines()
    lines = ["table"] + large_heads() + [question for question, _ in asked_of]
    try:
        run = subprocess.run(program, input="\n".join(lines) + "\n", capture_output=True, text=True, timeout=GENEROUS_SECONDS)
    except subprocess.TimeoutExpired:
        print(f"FAIL: no answer on types of {DIMENSIONS} dimensions or {PARAMETERS} parameters in {GENEROUS_SECONDS} seconds")
        return 1
    answers = run.stdout.split("\n")[1:len(asked_of) + 1]
    wrong = 0
    for (question, wanted), found in itertools.zip_longest(asked_of, answers, fillvalue="no answer"):
        if found != wanted:
            wrong += 1
            print(f"FAIL: {question[:60]}: {found[:60]!r}, not {wanted[:60]!r}")
    if not wrong:
        print(f"types: {len(asked_of)} calls on {DIMENSIONS} dimensions or {PARAMETERS} parameters end with their answers")
    return wrong


def main():
    program = sys.argv[1:]
    wrong = large_answers(program)
    if wrong:
        return 1
    if shutil.which("javac") is None:
        print("skipped: a comparison of answers on types needs javac")
        return 0
    return compared(program)


def compared(program):
    rng = random.Random(int(os.environ.get("TYPES_SEED", SEED)))
    samples = taken_samples(rng)
    per_sample = QUESTIONS // max(1, len(samples)) + 4
    formed, pairs = {}, {}
    wanted = []
    for number, sample in enumerate(samples):
        types = []
        for _ in range(per_sample):
            ty = sample.some_type()
            types += [ty, sample.other(ty)]
        wanted.append((sample, list(dict.fromkeys(types)), types))
    answers = asked(program, [(sample, ["wellformed " + plain(ty) for ty in distinct]) for sample, distinct, _ in wanted])
    source = Source()
    rows = []
    groups = []
    for number, ((sample, distinct, types), given) in enumerate(zip(wanted, answers)):
        verdict = dict(zip(distinct, given))
        source.table(number, sample)
        head = "static " + type_parameters(sample) + "void "
        few = distinct[:max(4, per_sample // 3)]
        for ty in few:
            line = source.add(f"{head}m{len(source.lines)}({java(ty)} t) {{}}")
            rows.append(("wellformed", sample, ty, None, verdict[ty], line))
        questions = []
        for s, t in zip(types[::2], types[1::2]):
            if len(questions) >= per_sample - len(few):
                break
            if verdict[s] == "Yes" and verdict[t] == "Yes":
                questions.append((s, t))
        for s, t in questions:
            line = source.add(f"{head}m{len(source.lines)}({java(s)} s) {{ {java(t)} t = s; }}")
            rows.append(("below", sample, s, t, None, line))
        groups.append((sample, [f"below {plain(s)} {plain(t)}" for s, t in questions]))
        source.add("}")
    below = iter([answer for part in asked(program, groups) for answer in part])
    reports = told(source)
    return judged(rows, below, reports)


def judged(rows, below, reports):
    """Counts the comparisons, and shows each difference that no rule explains."""
    counts, reasons = {}, {}
    wrong = 0
    for kind, sample, one, other, answer, line in rows:
        report = reports.get(line, [])
        if kind == "below":
            answer = next(below)
            if any("not.within.bounds" in text for text in report):
                continue
        refused = any("prob.found.req" in text if kind == "below" else text.startswith("compiler.err") for text in report)
        key = (kind, "Yes" if answer == "Yes" else "No")
        counts[key] = counts.get(key, 0) + 1
        if (answer == "Yes") == (not refused):
            continue
        why = reason(sample, kind, one, other, answer, report)
        reasons[why] = reasons.get(why, 0) + 1
        if why is None:
            wrong += 1
            show(kind, sample, one, other, answer, report)
    total = sum(counts.values())
    if wrong or total < QUESTIONS or min(counts.values(), default=0) < LEAST:
        print(f"FAIL: of {total} answers on types {wrong} differ from javac's and no rule says why: {counts}")
        return 1
    print(f"types: {total} answers, as many as {sum(reasons.values())} differ from javac's by a rule: {counts}")
    for why, count in sorted(reasons.items()):
        print(f"    {count}: {why}")
    return 0


def show(kind, sample, one, other, answer, report):
    print(f"DIFFERS: {kind} {java(one)} {java(other) if other else ''}: {answer}, but javac {report}")
    for head in sample.heads:
        print("    " + head.java())
    print("    " + type_parameters(sample))


if __name__ == "__main__":
    sys.exit(main())
