#!/usr/bin/env python3
"""Times the choice of a member: speed.py [ASKS]

Prints the least processor time of three runs of the program that answers questions on types (crates/jc_asks) on 100,000 calls of a name with five members and three
arguments, and what is left of it without the time of as many questions with one argument more, which no member takes. It is a
figure and no check: nothing here fails on a slow machine.
"""
import os
import sys

sys.dont_write_bytecode = True
sys.path.insert(0, os.path.join(os.path.dirname(os.path.abspath(__file__)), "..", "judging"))
from timing import least_time

CALLS = 100000
RUNS = 3
HEADS = """table
class java.lang.Number : Object
interface java.lang.Comparable CT : Object
interface java.lang.CharSequence : Object
final java.lang.Integer : java.lang.Number java.lang.Comparable<java.lang.Integer>
final java.lang.Long : java.lang.Number java.lang.Comparable<java.lang.Long>
final java.lang.String : Object java.lang.Comparable<java.lang.String> java.lang.CharSequence
interface Iterable E1 : Object
interface Collection E2 : Object Iterable<E2>
interface List E3 : Object Collection<E3>
class ArrayList E4 : Object List<E4>
variable T U:java.lang.Comparable<U>
"""
# five members as a library has them, the last one of any number of arguments
PLAIN = [
    "fixed : void java.lang.String int int",
    "fixed : void java.lang.CharSequence int int",
    "fixed : void java.lang.String java.lang.String int",
    "fixed : void Object Object Object",
    "variable : void java.lang.String Object[]",
]
GENERIC = [
    "fixed T : void Collection<+T> T int",
    "fixed T : List<T> List<T> T int",
    "fixed U : U Iterable<+U> U U",
    "fixed : void Object Object Object",
    "variable T : List<T> T[]",
]
CASES = [
    ("a name whose members have no type parameters", PLAIN, "java.lang.String int int", "Chosen 0 subtyping : void"),
    ("a name with generic members", GENERIC, "ArrayList<java.lang.String> java.lang.String int", "Chosen 1 subtyping java.lang.String : List<java.lang.String>"),
    ("the same with a boxed argument, in the second phase", GENERIC, "ArrayList<java.lang.Integer> int java.lang.Integer", "Ambiguous 1 2"),
]


def spent(program, question, wanted):
    return least_time(program, HEADS + (question + "\n") * CALLS, wanted, RUNS)


def main():
    here = os.path.dirname(os.path.abspath(__file__))
    program = sys.argv[1] if len(sys.argv) > 1 else os.path.join(here, "..", "..", "crates", "jc_asks", "out", "jc_asks")
    for name, members, args, wanted in CASES:
        words = " | ".join(members)
        whole = spent(program, f"call : {args} : | {words}", wanted)
        reading = spent(program, f"call : {args} null : | {words.replace('variable', 'fixed')}", "NoneApplicable")
        print(f"{CALLS} calls of {name}: {whole:.2f} s in all, {whole - reading:.2f} s without reading ({wanted})")


if __name__ == "__main__":
    main()
