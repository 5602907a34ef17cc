#!/usr/bin/env python3
"""Times questions on types, on a table of 20,000 classes: speed.py [ASKS]

Prints the least processor time of five runs of the program that answers them (crates/jc_asks), and what is left of it without the
time of as many questions that are settled at once, `below T T`: so without the reading of heads and questions. It is a figure and
no check: nothing here fails on a slow machine.
"""
import os
import sys

sys.dont_write_bytecode = True
sys.path.insert(0, os.path.join(os.path.dirname(os.path.abspath(__file__)), "..", "judging"))
from timing import least_time

CLASSES = 20000
CHAIN = 200
QUESTIONS = 100000
RUNS = 5


def heads():
    lines = [
        "interface Iterable T0 : Object",
        "interface Collection T1 : Object Iterable<T1>",
        "interface List T2 : Object Collection<T2>",
        "class AbstractCollection T3 : Object Collection<T3>",
        "class AbstractList T4 : AbstractCollection<T4> List<T4>",
        "class ArrayList T5 : AbstractList<T5> List<T5>",
        "class X : Object",
    ]
    # the class at the bottom reaches Iterable by the interface of the one at the top alone
    for number in range(CHAIN):
        lines.append(f"interface I{number} A{number} : Object" + (f" Iterable<A{number}>" if number == 0 else ""))
        above = f"C{number - 1}<B{number}>" if number else "Object"
        lines.append(f"class C{number} B{number} : {above} I{number}<B{number}>")
    while len(lines) < CLASSES - 1:
        lines.append(f"class Plain{len(lines)} : Object")
    return lines


def spent(program, question):
    return least_time(program, "\n".join(["table"] + heads() + [question] * QUESTIONS) + "\n", "Yes", RUNS)


def main():
    here = os.path.dirname(os.path.abspath(__file__))
    program = sys.argv[1] if len(sys.argv) > 1 else os.path.join(here, "..", "..", "crates", "jc_asks", "out", "jc_asks")
    for name, source in [("a list", "ArrayList<X>"), (f"a chain of {CHAIN} classes with an interface each", f"C{CHAIN - 1}<X>")]:
        whole = spent(program, f"below {source} Iterable<X>")
        settled = spent(program, f"below {source} {source}")
        print(f"{QUESTIONS} questions {source} below Iterable<X>, {name}: {whole:.2f} s in all, {whole - settled:.2f} s without reading")


if __name__ == "__main__":
    main()
