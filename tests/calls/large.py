#!/usr/bin/env python3
"""Asks for upper bounds, conversions, inference and members where types and calls are large: large.py ASKS

ASKS is the program that answers questions on types (crates/jc_asks). Each question has to end with its answer before a generous time limit; `Deep` is an answer where a
question of subtyping has neither a proof nor a refutation of height 64.
"""
import subprocess
import sys
import time

ARGUMENTS = 10000
OVERLOADS = 2000
CHAIN = 200
DEPTH = 64
JOINED = 1000
SECONDS = 120

LIBRARY = """class java.lang.Number : Object
interface java.lang.Comparable CT : Object
final java.lang.Integer : java.lang.Number java.lang.Comparable<java.lang.Integer>
final java.lang.String : Object java.lang.Comparable<java.lang.String>
interface List E1 : Object
class ArrayList E2 : Object List<E2>
""".splitlines()
INTEGER = "java.lang.Integer"
STRING = "java.lang.String"


def many_arguments():
    """Calls of members with many parameters, or of any number of arguments."""
    ints = " ".join([INTEGER] * ARGUMENTS)
    wide = " ".join(["java.lang.Number"] * ARGUMENTS)
    generic = " ".join(["T"] * ARGUMENTS)
    lists = " ".join([f"ArrayList<{INTEGER}>", f"ArrayList<{STRING}>"] * (ARGUMENTS // 2))
    return LIBRARY + ["variable T"], [
        (f"call : {ints} : | fixed : void {wide} | fixed : void {ints}", "Chosen 1 subtyping : void"),
        (f"call : {' '.join(['int'] * ARGUMENTS)} : | fixed : void {wide} | variable : void int[]", "Chosen 0 invocation : void"),
        (f"call : {ints} : | fixed : void {STRING} | variable : void java.lang.Number[]", "Chosen 1 variable : void"),
        (f"call : {ints} : | variable T : List<T> T[]", f"Chosen 0 variable {INTEGER} : List<{INTEGER}>"),
        (f"call : {ints} : | fixed T : T {generic}", f"Chosen 0 subtyping {INTEGER} : {INTEGER}"),
        (f"call : {lists} : | variable T : List<T> List<+T>[]", f"Chosen 0 variable {JOIN} : List<{JOIN}>"),
        (f"infer variable T : T T[] : {' '.join([INTEGER, STRING] * (ARGUMENTS // 2))}", f"Inferred {JOIN}"),
    ]


JOIN = "java.lang.Comparable<+java.lang.Comparable<?>>"


def many_overloads():
    """One name with many members: for a tree and a chain of classes, for classes beside one another, with one signature, and generic ones."""
    tree = ["class L0 : Object"] + [f"class L{number} : L{(number - 1) // 2}" for number in range(1, OVERLOADS)]
    chain = ["class C0 : Object"] + [f"class C{number} : C{number - 1}" for number in range(1, CHAIN)]
    flat = [f"class F{number} : Object" for number in range(OVERLOADS)]
    below_tree = " | ".join(f"fixed : void L{number}" for number in range(OVERLOADS))
    below_chain = " | ".join(f"fixed : void C{number}" for number in range(CHAIN))
    beside = " | ".join(f"fixed : void F{number}" for number in range(OVERLOADS))
    same = " | ".join("fixed : void F0" for _ in range(OVERLOADS))
    generic = " | ".join(f"fixed T : void List<+L{number}> T" for number in range(OVERLOADS))
    last = OVERLOADS - 1
    return LIBRARY + tree + chain + flat + ["variable T"], [
        (f"call : L{last} : | {below_tree}", f"Chosen {last} subtyping : void"),
        (f"call : C{CHAIN - 1} : | {below_chain}", f"Chosen {CHAIN - 1} subtyping : void"),
        (f"call : null : | {beside}", "Ambiguous 0 1"),
        (f"call : F0 : | {same}", "Chosen 0 subtyping : void"),
        (f"call : int : | {beside}", "NoneApplicable"),
        (f"call : List<L{last}> L0 : | {generic}", f"Chosen {last} subtyping L0 : void"),
    ]


def nested(name, depth, inner="Object"):
    return (name + "<") * depth + inner + ">" * depth


def deep_types():
    """Types of many levels, at the height that questions of subtyping have and above it."""
    low, high = DEPTH - 2, DEPTH + 8
    deep = nested("List", high)
    return LIBRARY + ["variable T"], [
        (f"below {nested('ArrayList', low)} {nested('List', 1, nested('ArrayList', low - 1))}", "Yes"),
        (f"lub {deep} {deep}", deep),
        (f"distinct {deep} {nested('List', high, STRING)}", "Yes"),
        (f"assign {deep} {deep}", "Yes"),
        (f"cast Object {deep}", f"Yes check {deep}"),
        (f"infer subtyping T : T {nested('List', high, 'T')} : {deep}", "Inferred Object"),
        (f"call : {deep} : | fixed T : T {nested('List', high, 'T')} | fixed T : T T", "Chosen 0 subtyping Object : Object"),
        (f"below {covariant(high)} {covariant(high, 'List')}", "Deep"),
        (f"call : {covariant(high)} : | fixed : void {covariant(high, 'List')}", "Deep"),
        (f"cast {covariant(high)} {covariant(high, 'List')}", "Deep"),
    ]


def covariant(depth, name="ArrayList"):
    return (name + "<+") * depth + "Object" + ">" * depth


def many_joined():
    """Upper bounds of many types."""
    classes = [f"class J{number} : Object java.lang.Comparable<J{number}> List<J{number}>" for number in range(JOINED)]
    chain = ["class K0 : Object"] + [f"class K{number} : K{number - 1}" for number in range(1, JOINED)]
    interfaces = [f"interface I{number} : Object" for number in range(JOINED // 2)]
    all_of = " ".join(f"I{number}" for number in range(JOINED // 2))
    both = [f"class A{number} : Object {all_of}" for number in range(2)]
    names = [f"J{number}" for number in range(JOINED)]
    inner = "+{java.lang.Comparable<?>&List<?>}"
    joined = f"{{java.lang.Comparable<{inner}>&List<{inner}>}}"
    return LIBRARY + classes + chain + interfaces + both, [
        ("lub " + " ".join(names), joined),
        ("lub " + " ".join(f"List<{name}>" for name in names), "List<+{java.lang.Comparable<?>&List<?>}>"),
        ("lub " + " ".join(f"K{number}" for number in reversed(range(JOINED))), "K0"),
        ("lub A0 A1", "{" + "&".join(f"I{number}" for number in range(JOINED // 2)) + "}"),
        ("lub " + " ".join([INTEGER] * JOINED), INTEGER),
        ("lub " + " ".join(f"{name}[]" for name in names), joined + "[]"),
    ]


def expansive():
    """Classes whose supertypes grow without end."""
    heads = ["interface N Z : Object", "class C X : Object N<N<-C<C<X>>>>", "class D Y : Object N<N<-D<D<D<Y>>>>>", "class B : Object", "variable T"]
    return LIBRARY + heads, [
        ("below C<B> N<-C<B>>", "Deep"),
        ("assign C<B> N<-C<B>>", "Deep"),
        ("invoke C<B> N<-C<B>>", "Deep"),
        ("cast C<B> N<-C<B>>", "Deep"),
        ("distinct C<B> D<B>", "Yes"),
        ("lub C<B> D<B>", "N<+N<?>>"),
        ("lub C<B> C<C<B>>", "C<+Object>"),
        ("lub C<C<C<B>>> D<D<B>> C<B>", "N<+N<?>>"),
        ("infer subtyping T : T N<-C<T>> : C<B>", "Inferred Object"),
        ("infer subtyping T : T N<+N<-T>> : C<B>", "Inferred C<C<B>>"),
        ("call : C<B> : | fixed : void N<-C<B>>", "Deep"),
        ("call : C<B> : | fixed T : T N<-C<T>> | fixed T : T N<T>", "Deep"),
        ("call : C<B> : | fixed T : T N<+N<-T>> | fixed T : T N<T>", "Ambiguous 0 1"),
    ]


def answers(program, lines, questions):
    text = "\n".join(["table"] + lines + [question for question, _ in questions]) + "\n"
    run = subprocess.run(program, input=text, capture_output=True, text=True, timeout=SECONDS)
    return run.stdout.split("\n")[1:len(questions) + 1]


def main():
    program = sys.argv[1:]
    wrong, count = 0, 0
    for name, group in [("arguments", many_arguments), ("overloads", many_overloads), ("levels", deep_types), ("types joined", many_joined),
                        ("supertypes that grow", expansive)]:
        lines, questions = group()
        begun = time.time()
        try:
            found = answers(program, lines, questions)
        except subprocess.TimeoutExpired:
            print(f"FAIL: no answers on many {name} in {SECONDS} seconds")
            wrong += 1
            continue
        print(f"calls: questions on {name} took {time.time() - begun:.1f} s")
        found += ["no answer"] * (len(questions) - len(found))
        for (question, wanted), answer in zip(questions, found):
            count += 1
            if answer != wanted:
                wrong += 1
                print(f"FAIL: {question[:80]}: {answer[:200]!r}, not {wanted[:200]!r}")
    print(f"calls: {count} questions on large types and calls, {wrong} wrong")
    return 1 if wrong else 0


if __name__ == "__main__":
    sys.exit(main())
