#!/usr/bin/env python3
"""Times the machine beside `java -Xint` on the same class files: speed.py TOOL

Prints the least processor time, user and system, of three runs of each program, less that of an empty program. For the loop of simple
instructions it also prints how many of them were run in a second. Java runs the programs with its own library, whose copies of arrays are
native. These are figures and no check: nothing here fails on a slow machine.
"""
import os
import resource
import shutil
import subprocess
import sys
import tempfile

sys.dont_write_bytecode = True
from runs import JAVA, compile_all, needed

HERE = os.path.dirname(os.path.abspath(__file__))
RUNS = 3
TURNS = 20_000_000
# From the loop's test to the jump back, as javac writes the loop of Arithmetic.
INSTRUCTIONS = 22
EMPTY = "class Empty { public static void main(String[] args) { } }\n"


def seconds(words):
    """The processor time of a run, and what it put out."""
    before = resource.getrusage(resource.RUSAGE_CHILDREN)
    done = subprocess.run(words, stdout=subprocess.PIPE, stderr=subprocess.PIPE)
    after = resource.getrusage(resource.RUSAGE_CHILDREN)
    return after.ru_utime - before.ru_utime + after.ru_stime - before.ru_stime, done.stdout


def least(words):
    runs = [seconds(words) for _ in range(RUNS)]
    return min(time for time, _ in runs), runs[0][1]


def main():
    tool = os.path.abspath(sys.argv[1])
    if not shutil.which("javac") or not shutil.which("java"):
        print("skipped: the machine's speed beside java needs javac and java")
        return
    with tempfile.TemporaryDirectory() as room:
        os.mkdir(f"{room}/empty")
        with open(f"{room}/empty/Empty.java", "w") as file:
            file.write(EMPTY)
        classes, prelude = compile_all(room, [os.path.join(HERE, "speed"), f"{room}/empty"])

        def both(name):
            files = [f"{room}/programs/{one}.class" for one in needed(classes, name)]
            return least([tool, name] + prelude + files), least(JAVA + ["-cp", f"{room}/programs", name])
        (start, _), (java_start, _) = both("Empty")
        print(f"start: machine {start:.2f} s, java -Xint {java_start:.2f} s")
        for name in ("Arithmetic", "Strings", "Collections"):
            (time, shown), (java_time, java_shown) = both(name)
            time, java_time = max(time - start, 0.001), max(java_time - java_start, 0.001)
            same = "" if shown == java_shown else "; they show different things"
            rate = f", {TURNS * INSTRUCTIONS / time / 1e6:.0f} million instructions a second" if name == "Arithmetic" else ""
            print(f"{name}: machine {time:.2f} s{rate}, java -Xint {java_time:.2f} s, {time / java_time:.1f} times{same}")


if __name__ == "__main__":
    main()
