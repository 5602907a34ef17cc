#!/usr/bin/env python3
"""Compares calls of bodies with those of `javac --release 7`: apart.py ASKS

ASKS is the program that answers questions on types (crates/jc_asks). Each call stands in a body where a type can name a type parameter of the very method that is called, or is one that tells more than its member: to which types its
arguments go, what it throws, what a creation keeps. `javac` has to take a call that is chosen, also with its result assigned to a variable of the type that is told and with each thrown type that is told caught, and nothing uncaught; and
to refuse one that isn't chosen. In the last cases javag takes another member than `javac`, by the rules that docs/DECISIONS.md tells: they have to differ so.
"""
import importlib.util
import os
import re
import shutil
import subprocess
import sys
import tempfile

sys.dont_write_bytecode = True
HERE = os.path.dirname(os.path.abspath(__file__))


def loaded(name, *path):
    spec = importlib.util.spec_from_file_location(name, os.path.join(HERE, "..", *path))
    module = importlib.util.module_from_spec(spec)
    spec.loader.exec_module(module)
    return module


types_check = loaded("types_check", "types", "check.py")

TABLE = """table
class String : Object
class Throwable : Object
class Failure : Throwable
class Number : Object
class Integer : Number
class List E : Object
class Box X : Object
method box Box new constructor fixed : void
method set Box set fixed B : void X B
method up Box up fixed D:X : D D
method own Box own static fixed S : S S S
class Pair T : Object
method pair Pair new constructor fixed : void List<?> T throws Failure
class Thrower F:Throwable : Object
method raise Thrower raise fixed G:Throwable : void G F throws F G
method many Thrower many variable H : List<H> F H[] throws F
class Both C : Object
method one Both f fixed : Object C
method text Both f fixed : Object String
"""

# the same classes in Java; a call stands at the mark of its method
JAVA = """static class Failure extends Throwable {}
static class List<E> {}
static class Box<X> { Box() {} <B> void set(X x, B b) { @set@ } <D extends X> D up(D d) { @up@ return null; } static <S> S own(S s, S t) { @own@ return null; } }
static class Pair<T> { Pair(List<?> l, T t) throws Failure {} }
static class Thrower<F extends Throwable> { <G extends Throwable> void raise(G g, F f) throws F, G { @raise@ } <H> List<H> many(F f, H... h) throws F { @many@ return null; } }
static class Both<C> { Object f(C c) { return null; } Object f(String s) { return null; } void go() { @both@ } }
"""

# the method that a call stands in, the question, and the call in Java, where RAW is a raw List
CALLS = [
    ("set", 'means Box<B> set : String B', 'new Box<B>().set("s", b)'),
    ("set", 'means Box<B> set : B B', "new Box<B>().set(b, b)"),
    ("set", 'means Box<B> set : B String', 'new Box<B>().set(b, "s")'),
    ("set", 'means Box<X> set : X B', "new Box<X>().set(x, b)"),
    ("set", 'means Box<X> set : B X', "new Box<X>().set(b, x)"),
    ("set", 'means Box<List<B>> set : List<B> B', "new Box<List<B>>().set(new List<B>(), b)"),
    ("set", 'means Box<List<B>> set : List<String> B', "new Box<List<B>>().set(new List<String>(), b)"),
    ("set", 'means Box set : String B', 'new Box().set("s", b)'),
    ("set", 'means Box<B> set String : B String', 'new Box<B>().<String>set(b, "s")'),
    ("set", 'means Box<B> set B : String B', 'new Box<B>().<B>set("s", b)'),
    ("up", 'means Box<D> up : String', 'new Box<D>().up("s")'),
    ("up", 'means Box<D> up : D', "new Box<D>().up(d)"),
    ("up", 'means Box<X> up : D', "new Box<X>().up(d)"),
    ("up", 'means Box<D> up : null', "new Box<D>().up(null)"),
    ("own", 'means Box<S> own : S S', "Box.own(s, t)"),
    ("own", 'means Box own : S String', 'Box.own(s, "s")'),
    ("set", 'creates Box<>', "new Box<>()"),
    ("set", 'creates Box<B>', "new Box<B>()"),
    ("set", 'creates Pair<> : List String', 'new Pair<>(RAW, "s")'),
    ("set", 'creates Pair<> : List<String> B', "new Pair<>(new List<String>(), b)"),
    ("set", 'creates Pair<String> : List String', 'new Pair<String>(RAW, "s")'),
    ("set", 'creates Pair<B> : List String', 'new Pair<B>(RAW, "s")'),
    ("set", 'creates Pair : List String', 'new Pair(RAW, "s")'),
    ("set", 'creates Pair<> : String String', 'new Pair<>("s", "s")'),
    ("set", 'means Thrower<Failure> raise : Failure Failure', "new Thrower<Failure>().raise(new Failure(), new Failure())"),
    ("set", 'means Thrower<Failure> raise : Failure Throwable', "new Thrower<Failure>().raise(new Failure(), new Throwable())"),
    ("set", 'means Thrower raise : Failure Failure', "new Thrower().raise(new Failure(), new Failure())"),
    ("set", 'means Thrower many : Failure String', 'new Thrower().many(new Failure(), "s")'),
    ("set", 'means Thrower<Failure> many : Failure String String', 'new Thrower<Failure>().many(new Failure(), "s", "s")'),
    ("set", 'means Thrower<Failure> many : Failure', "new Thrower<Failure>().many(new Failure())"),
    ("set", 'means Thrower<Failure> many : Failure String[]', "new Thrower<Failure>().many(new Failure(), new String[0])"),
    ("raise", 'means Thrower<G> raise : Failure G', "new Thrower<G>().raise(new Failure(), g)"),
    ("raise", 'means Thrower<G> raise : G Failure', "new Thrower<G>().raise(g, new Failure())"),
    ("many", 'means Thrower<F> many : F List<H>', "new Thrower<F>().many(f, new List<H>())"),
    ("both", 'means Both<String> f : String', 'new Both<String>().f("s")'),
    ("both", 'means Both<Integer> f : Integer', "new Both<Integer>().f(new Integer(1))"),
    ("both", 'means Both<Integer> f : String', 'new Both<Integer>().f("s")'),
]

# programs of docs/DECISIONS.md in questions: the member that javac takes is 0, and javag takes 1
OTHERS = """table
class String : Object
interface Comparable E : Object
class Number : Object
class java.lang.Short : Number Comparable<java.lang.Short>
class Long : Number Comparable<Long>
class List L : Object
variable A:Comparable<A> B
variable T:Comparable<T>
variable V:{Number&Comparable<V>}
capture List<+Long>
call : java.lang.Short : | fixed A B : String B | fixed : String short
call : Comparable : | fixed T : String T | fixed : String Object
call : #0 : | fixed V : String V | fixed : String Object
"""

MARK = re.compile("@[a-z]+@")
ROW = re.compile(r"class (Row\d) \{.*\}")


def answered(program, lines):
    """The answers to the questions of a table."""
    run = subprocess.run(program, input=lines, capture_output=True, text=True)
    if run.returncode != 0:
        raise SystemExit("ASKS failed:\n" + run.stderr[-2000:])
    return run.stdout.splitlines()[1:]


def java(words):
    """A type of an answer in Java."""
    return words.replace("+", "? extends ").replace("-", "? super ").replace(",", ", ")


class Told:
    """What is told of a chosen member."""

    def __init__(self, answer):
        head, _formals, kept, thrown = answer.split("|")
        self.result = head.split(" : ")[1].split()[0]
        self.kept = kept.strip()
        self.thrown = [word for word in dict.fromkeys(thrown.split()) if len(word) > 1]

    def statements(self, call):
        """Statements that javac takes where it takes the call to mean the same: the result, and what is kept, where it is told, are what the variables are."""
        types = [self.result] if self.kept == self.result else [self.result, self.kept]
        for number, ty in enumerate(types):
            words = f"{call};" if ty == "void" else f"{java(ty)} r{number} = {call};"
            caught = "".join(f" catch ({ty} e) {{}}" for ty in self.thrown)
            yield f"try {{ {words} }}{caught}" if caught else words


def body(method, statement):
    """The classes with a statement in a method, whose types may be raw."""
    def put(mark):
        return f"List raw = null; {statement}" if mark.group(0) == f"@{method}@" else ""
    return [MARK.sub(put, line) for line in JAVA.splitlines()]


def chosen_calls(program):
    """Each call with whether javac has to take it, and the lines where it stands."""
    answers = answered(program, TABLE + "".join(question + "\n" for _, question, _ in CALLS))
    source = types_check.Source()
    rows = []
    for (method, question, call), answer in zip(CALLS, answers, strict=True):
        is_chosen = answer.startswith("Chosen ")
        call = call.replace("RAW", "raw")
        for statement in Told(answer).statements(call) if is_chosen else [f"{call};"]:
            first = source.add(f"class W{len(rows)} {{")
            for line in body(method, statement):
                source.add(line)
            rows.append((question, answer, statement, is_chosen, range(first, source.add("}") + 1)))
    return source, rows


def compared(program):
    source, rows = chosen_calls(program)
    reports = types_check.told(source)
    wrong = 0
    for question, answer, statement, is_chosen, lines in rows:
        errors = [text for line in lines for text in reports.get(line, []) if text.startswith("compiler.err")]
        if bool(errors) == is_chosen:
            wrong += 1
            print(f"FAIL: {question}: {answer}, javac of {statement}: {errors}")
    print(f"calls of bodies: {len(rows)} statements compared, {sum(row[3] for row in rows)} of calls that mean a member, {wrong} wrong")
    return wrong


def others(program):
    """The programs of the page of decisions mean one member under javac, and another one here."""
    answers = answered(program, OTHERS)[1:]
    with open(os.path.join(HERE, "..", "..", "docs", "DECISIONS.md"), encoding="utf-8") as file:
        programs = [(found.group(1), found.group(0)) for found in ROW.finditer(file.read())]
    wrong = 0
    for (name, text), answer in zip(programs, answers, strict=True):
        with tempfile.TemporaryDirectory() as folder:
            with open(os.path.join(folder, name + ".java"), "w", encoding="utf-8") as file:
                file.write(text)
            subprocess.run(["javac", "--release", "7", "-nowarn", name + ".java"], cwd=folder, capture_output=True, check=True)
            run = subprocess.run(["java", "-cp", folder, name], capture_output=True, text=True, check=True)
        if run.stdout.strip() != "generic" or not answer.startswith("Chosen 1 "):
            wrong += 1
            print(f"FAIL: {name}: {answer}, java: {run.stdout.strip()}")
    print(f"calls of bodies: {len(programs)} that mean another member than under javac, {wrong} wrong")
    return wrong


def main():
    program = sys.argv[1:]
    if shutil.which("javac") is None:
        print("skipped: a comparison of calls needs javac")
        return 0
    return 1 if compared(program) + others(program) else 0


if __name__ == "__main__":
    sys.exit(main())
