#!/usr/bin/env python3
"""check.py [--write] [NAME ..]: what `javac --release 7 -Xlint:unchecked` and `java` say of each source here is what its file `verdict` tells.

The sources wait for the checks of bodies. The file `wanted` tells what javag is to say of each; its first line is one of `runs`, `throws CLASS` and
`refused RULE at LINE:COLUMN`, with `warned of at LINE:COLUMN` where an unchecked warning is wanted too. --write writes the verdicts anew."""
import os, re, shutil, subprocess, sys, tempfile
from concurrent.futures import ThreadPoolExecutor

HERE = os.path.dirname(os.path.abspath(__file__))
SAID = re.compile(r"^[^:\n]*\.java:(\d+): (error|warning): (.*)$", re.M)
WANTED = re.compile(r"(runs|throws [\w.]+|refused \d+ at \d+:\d+)(, warned of at .*)?")


def ending(ran):
    thrown = re.search(r'^Exception in thread "main" ([\w.]+)', ran.stderr, re.M)
    return f"|threw {thrown.group(1)}" if thrown else f"|exited {ran.returncode}" if ran.returncode else "|ended"


def verdict(name):
    """The lines of javac, and what java shows where javac takes the source and it has a main method."""
    with open(os.path.join(HERE, name + ".java"), encoding="utf-8") as it:
        source = it.read()
    room = tempfile.mkdtemp()
    try:
        words = ["javac", "--release", "7", "-Xlint:unchecked", "-Xlint:-options", "-encoding", "UTF-8", "-d", room, os.path.join(HERE, name + ".java")]
        said = subprocess.run(words, stdout=subprocess.PIPE, stderr=subprocess.STDOUT, text=True, encoding="utf-8", timeout=100)
        lines = [f"{kind} {line}: {text}" for line, kind, text in SAID.findall(said.stdout)]
        if said.returncode:
            return "\n".join(lines or ["error: " + said.stdout[:200]]) + "\n"
        if "void main(" in source:
            ran = subprocess.run(["java", "-Dfile.encoding=UTF-8", "-cp", room, "Main"], stdout=subprocess.PIPE, stderr=subprocess.PIPE, text=True, encoding="utf-8", timeout=100)
            return "\n".join(lines + ["accepted"]) + "\n" + ran.stdout + ending(ran) + "\n"
        return "\n".join(lines + ["accepted"]) + "\n"
    except subprocess.TimeoutExpired:
        return "no answer in 100 seconds\n"
    finally:
        shutil.rmtree(room)


def read(path):
    with open(path, encoding="utf-8") as it:
        return it.read()


def main():
    names = [it for it in sys.argv[1:] if not it.startswith("-")] or sorted(it[:-5] for it in os.listdir(HERE) if it.endswith(".java"))
    if shutil.which("javac") is None:
        print("skipped: the sources that wait need javac")
        return 0
    with ThreadPoolExecutor(2) as pool:
        verdicts = list(pool.map(verdict, names))
    wrong = 0
    for name, given in zip(names, verdicts):
        path = os.path.join(HERE, name + ".verdict")
        if "--write" in sys.argv:
            with open(path, "w", encoding="utf-8") as it:
                it.write(given)
        elif given != read(path):
            wrong += 1
            print(f"{name}: javac and java say\n{given}where the verdict is\n{read(path)}")
        if not WANTED.fullmatch(read(os.path.join(HERE, name + ".wanted")).split("\n")[0]):
            wrong += 1
            print(f"{name}: what is wanted isn't said as it should be")
    print(f"waiting: {len(names)} sources, {wrong} wrong")
    return 1 if wrong else 0


sys.exit(main())
