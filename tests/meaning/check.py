#!/usr/bin/env python3
"""check.py JC_EVAL: each program of cases/ is run with several numbers of units. With the most of them it shows what `java` showed of
it; with fewer it shows that too, or it still goes on and what it wrote is a first part of it.

The programs of kept/ are none of Java's: they show the types that objects keep, and what no program of Java shows. `new T[] {} instanceof S[]` tells what a
type variable stands for, as the array is made of T itself; variables are read before they are set; bodies end without their result; elements get numbers
that are too large for them. Beside each stands what the definitions say, counted by hand."""
import os, subprocess, sys
from concurrent.futures import ThreadPoolExecutor

HERE = os.path.dirname(os.path.abspath(__file__))
sys.path.insert(0, HERE)
import typed

UNITS = [0, 1, 2, 100, 5000, 30000, 100000, 20000000]


def differences(program, folder, name):
    source = os.path.join(HERE, folder, name + ".java")
    with open(os.path.join(HERE, folder, name + ".expected"), "rb") as it:
        expected = it.read()
    text = typed.write(source, "UNITS")
    given = "@".join(text.replace(" UNITS ", f" {units} ") for units in UNITS)
    try:
        said = subprocess.run([program], input=given.encode(), stdout=subprocess.PIPE, timeout=100).stdout
    except subprocess.TimeoutExpired:
        return [f"{name}: no answer in 100 s"]
    runs = said.split(b"@\n")[:-1]
    if len(runs) != len(UNITS):
        return [f"{name}: {len(runs)} answers of {len(UNITS)}"]
    wrong = []
    for units, run in zip(UNITS, runs):
        goes_on = run.endswith(b"|going\n") and units < UNITS[-1]
        if run != expected and not (goes_on and expected.startswith(run.removesuffix(b"|going\n"))):
            wrong.append(f"{name}, {units} units: {run[-300:]!r} where java shows {expected[-300:]!r}")
    return wrong


def main():
    program = os.path.abspath(sys.argv[1])
    names = [(folder, it.removesuffix(".java")) for folder in ("cases", "kept") for it in sorted(os.listdir(os.path.join(HERE, folder))) if it.endswith(".java")]
    with ThreadPoolExecutor(4) as pool:
        wrong = [line for lines in pool.map(lambda name: differences(program, *name), names) for line in lines]
    for line in wrong:
        print(line)
    print(f"meaning: {len(names)} programs with {len(UNITS)} numbers of units each, {len(wrong)} differences from java or from what is wanted")
    return 1 if wrong else 0


sys.exit(main())
