#!/usr/bin/env python3
"""check.py JAVAG: lists of words that are drawn by lot, and a few that aren't, against the rules on words, written here once more.

An option has its value behind an equals sign or in the next word; no value is empty, and none in a word of its own begins with a dash, but for a dash
alone. A word that begins with a dash and is no such option breaks the rules, and so does an option that stands twice. Behind `--` no word is an option. Of the other
words those that end in `.java` are sources and the rest arguments. What is wrong first of these is the fault: the options, no source, arguments without a
class to run, steps that are no number in its shortest form up to 2^63 - 1."""
import os
import random
import re
import subprocess
import sys
import tempfile

DRAWN = 400
SEED = 5
SOURCE = "class Main { public static void main(String[] args) { System.out.write(70 + 2); System.out.write(105); } }"
USAGE = "javag: usage: javag [--out DIR] [--run CLASS] [--steps N] FILE.java ... [ARGUMENT ...]\n"
OPTIONS = ("--out", "--run", "--steps")

# what isn't drawn: the words, and the fault or the job's values
WORKED = [
    (["x.txt"], "NoSource"),
    (["Main.java", "x"], "Stray"),
    (["--run", "Main", "--steps", "x", "Main.java"], "Steps"),
    (["--out"], "Line"),
    ([], "NoSource"),
    ([""], "NoSource"),
    (["--help"], "Line"),
    (["-h", "Main.java"], "Line"),
    (["--version", "Main.java"], "Line"),
    (["help", "Main.java"], "Stray"),
    (["--ou", "d", "Main.java"], "Line"),
    (["--out=", "Main.java"], "Line"),
    (["--out", "", "Main.java"], "Line"),
    (["--out", "--run", "Main", "Main.java"], "Line"),
    (["--out", "--", "Main.java"], "Line"),
    (["--out", "-d", "Main.java"], "Line"),
    (["--run", "Main", "--run=Main", "Main.java"], "Line"),
    (["--", "--out", "Main.java"], "Stray"),
    (["--run", "Main", "--steps", "9223372036854775808", "Main.java"], "Steps"),
    (["--run", "Main", "--steps=+1", "Main.java"], "Steps"),
    (["-", "Main.java"], "Stray"),
    (["-5", "Main.java"], "Line"),
    (["---", "Main.java"], "Line"),
    (["--=d", "Main.java"], "Line"),
]


class Fault(Exception):
    pass


def option_of(word):
    """The option that a word names, with the value in it; None where it is no option."""
    name, equals, value = word.partition("=")
    return (name, value if equals else None) if name in OPTIONS else None


def read(words):
    """The values of the options, and the other words."""
    values, others = {}, []
    left = list(words)
    while left:
        word = left.pop(0)
        if word == "--":
            return values, others + left
        if not word.startswith("-") or word == "-":
            others.append(word)
            continue
        option = option_of(word)
        if option is None:
            raise Fault("Line")
        name, value = option
        if value is None:
            value = left.pop(0) if left else ""
            if value.startswith("-") and value != "-":
                raise Fault("Line")
        if not value or name in values:
            raise Fault("Line")
        values[name] = value
    return values, others


def job(words):
    values, others = read(words)
    sources = [word for word in others if word.endswith(".java")]
    arguments = [word for word in others if not word.endswith(".java")]
    if not sources:
        raise Fault("NoSource")
    if arguments and "--run" not in values:
        raise Fault("Stray")
    steps = values.get("--steps", "1000000000")
    if not re.fullmatch("0|[1-9][0-9]*", steps) or int(steps) >= 2 ** 63:
        raise Fault("Steps")
    return values.get("--out", None if "--run" in values else "."), values.get("--run"), int(steps), sources, arguments


def answer(words):
    """The status, the output and the last line that are wanted, and the class file that is to be there."""
    try:
        out, run, steps, sources, arguments = job(words)
    except Fault:
        return 2, "", USAGE, None
    for source in sources:
        if source != "Main.java":
            return 6, "", "javag: cannot read %s\n" % source, None
    if len(sources) > 1:
        return 3, "", "Main.java:1: error 301: type declared twice\n", None
    if arguments:
        return 3, "", "Main.java:1: error 900: form not built yet\n", None
    if run not in (None, "Main"):
        return 11, "", "javag: no main in %s\n" % run, None
    written = out and os.path.join(out, "Main.class")
    if run is None:
        return 0, "", "", written
    if steps <= 5:
        return 4, {0: "", 5: "H"}[steps], "javag: stopped after %d steps\n" % steps, written
    return 0, "Hi", "", written


def drawn(lot):
    """Words that are mostly nearly right."""
    words = []
    for _ in range(lot.choice((0, 1, 1, 2, 2, 3))):
        name = lot.choice(OPTIONS + OPTIONS + ("--help", "-x", "--outs", "-"))
        value = lot.choice({"--out": ("d", "d", "-", "", "-d", "d=e"), "--run": ("Main", "Main", "Other", "", "--"),
                            "--steps": ("0", "5", "1000000", "1000000", "007", "+5", "x", "9223372036854775807", "9223372036854775808", "")}.get(name, ("d",)))
        words += lot.choice(([name, value], [name + "=" + value], [name, value], [name]) if name in OPTIONS else ([name],))
    for _ in range(lot.choice((0, 1, 1, 1, 1, 2))):
        words.insert(lot.randrange(len(words) + 1), lot.choice(("Main.java", "Main.java", "Main.java", "Main.java", "A.java", "x", "", ".java")))
    if lot.random() < 0.15:
        words.insert(lot.randrange(len(words) + 1), "--")
    return words


def told(program, words):
    with tempfile.TemporaryDirectory(prefix="javag-words-") as folder:
        with open(os.path.join(folder, "Main.java"), "w", encoding="utf-8") as it:
            it.write(SOURCE)
        run = subprocess.run([program, *words], cwd=folder, stdin=subprocess.DEVNULL, stdout=subprocess.PIPE, stderr=subprocess.PIPE, text=True, timeout=100)
        written = [os.path.relpath(os.path.join(at, name), folder) for at, _, names in os.walk(folder) for name in names if name.endswith(".class")]
    return run.returncode, run.stdout, run.stderr, written


def differs(program, words):
    status, out, err, written = answer(words)
    found = told(program, words)
    if found[:3] != (status, out, err):
        return True
    return found[3] != ([os.path.normpath(written)] if written else [])


def worked_fault(words):
    try:
        job(words)
    except Fault as fault:
        return fault.args[0]
    return None


def main():
    program = os.path.abspath(sys.argv[1])
    bad = ["the rules say %s of %s, and %s is worked out" % (worked_fault(words), words, fault) for words, fault in WORKED if worked_fault(words) != fault]
    lot = random.Random(SEED)
    lists = [words for words, _ in WORKED] + [drawn(lot) for _ in range(DRAWN)]
    bad += ["javag %s: %s, wanted %s" % (words, told(program, words), answer(words)) for words in lists if differs(program, words)]
    jobs = sum(answer(words)[0] != 2 for words in lists)
    print(*bad, sep="\n", end="\n" if bad else "")
    print("words: %d lists, of which %d are jobs; %d differ" % (len(lists), jobs, len(bad)))
    return 1 if bad else 0


if __name__ == "__main__":
    sys.exit(main())
