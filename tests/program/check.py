#!/usr/bin/env python3
"""check.py JAVAG: the program as a user calls it: statuses, last lines, which stream gets what, folders and devices that fail.

What is expected stands in README.md: the exit statuses, and the lines that go to the stream of errors."""
import os, resource, subprocess, sys, tempfile

HI = "class Main { public static void main(String[] args) { System.out.write(70 + 2); System.out.write(105); } }"
USAGE = "javag: usage: javag [--out DIR] [--run CLASS] [--steps N] FILE.java ... [ARGUMENT ...]\n"

# the words, the text of Main.java, the status, what goes to the output, what goes to the stream of errors
CALLS = [
    ("--run Main Main.java", HI, 0, "Hi", ""),
    ("--run Main --steps 0 Main.java", HI, 4, "", "javag: stopped after 0 steps\n"),
    ("--run Main --steps 5 Main.java", HI, 4, "H", "javag: stopped after 5 steps\n"),
    ("--run Other Main.java", HI, 11, "", "javag: no main in Other\n"),
    ("--run Main Other.java", HI, 6, "", "javag: cannot read Other.java\n"),
    ("--run Main Main.java", "class Main { }", 3, "", "Main.java:1: error 900: form not built yet\n"),
    ("--run Main Main.java", "class Main /* small */ { public static void main(String[] args) { // nothing\n } }", 0, "", ""),
    ("--run Main Main.java", "class Main {\n  char c = '';\n}", 3, "", "Main.java:2: error 105: bad literal\n"),
    ("--run Main Main.java", "class Main {\n  int }\nfloat", 3, "", "Main.java:3: error 201: word left out\n"),
    ("--run Main Main.java", "@interface Main { }\nclass {", 3, "", "Main.java:2: error 202: syntax error or nesting above 200\n"),
    ("--run Main Main.java", "\n@interface Main { }", 3, "", "Main.java:2: error 203: form left out\n"),
    ("", HI, 2, "", USAGE),
    ("--steps 007 Main.java", HI, 2, "", USAGE),
]


def call(program, words, folder, **streams):
    return subprocess.run([program, *words], cwd=folder, stdin=subprocess.DEVNULL, timeout=100, **streams)


def piped(program, words, folder):
    return call(program, words, folder, stdout=subprocess.PIPE, stderr=subprocess.PIPE)


def fresh(text):
    folder = tempfile.mkdtemp(prefix="javag-program-")
    with open(os.path.join(folder, "Main.java"), "w", encoding="utf-8") as it:
        it.write(text)
    return folder


def calls(program):
    for words, text, status, out, err in CALLS:
        run = piped(program, words.split(), fresh(text))
        yield words or "no words", (run.returncode, run.stdout, run.stderr) == (status, out.encode(), err.encode())


def class_files(program):
    folder = fresh(HI)
    run = piped(program, ["--out", "d", "Main.java"], folder)
    with open(os.path.join(folder, "d", "Main.class"), "rb") as it:
        magic = it.read(4)
    yield "a folder gets the class file", (run.returncode, run.stdout, run.stderr, magic) == (0, b"", b"", b"\xca\xfe\xba\xbe")
    folder = fresh(HI)
    open(os.path.join(folder, "d"), "w").close()
    run = piped(program, ["--out", "d", "Main.java"], folder)
    yield "a file in the folder's place", (run.returncode, run.stderr) == (7, b"javag: cannot write after 0 class files\n")


def devices(program):
    if not os.path.exists("/dev/full"):
        return
    with open("/dev/full", "wb") as full:
        run = call(program, ["--run", "Main", "Main.java"], fresh(HI), stdout=full, stderr=subprocess.PIPE)
        yield "a full device for the output", (run.returncode, run.stderr) == (8, b"javag: output failed\n")
        run = call(program, ["--run", "Main", "Main.java"], fresh("class Main { }"), stdout=subprocess.PIPE, stderr=full)
        yield "a full device for errors", (run.returncode, run.stdout) == (3, b"")


def memory(program):
    """A job that wants some 54 MB, where 40 may be taken: the line is put without memory."""
    methods = "".join(f" int m{number}(int it) {{ return it; }}\n" for number in range(50))
    heads = ["class Main {"] + [f"class Main{number} extends Main{number - 1 or ''} {{" for number in range(1, 300)]
    limit = 40 << 20
    run = subprocess.run([program, "Main.java"], cwd=fresh("".join(f"{head}\n{methods}}}\n" for head in heads)), stdin=subprocess.DEVNULL, timeout=100,
                         stdout=subprocess.PIPE, stderr=subprocess.PIPE, preexec_fn=lambda: resource.setrlimit(resource.RLIMIT_AS, (limit, limit)))
    yield "want of memory", (run.returncode, run.stdout, run.stderr) == (5, b"", b"javag: out of memory\n")


def long_source(program):
    run = piped(program, ["--run", "Main", "Main.java"], fresh("/*" + " " * (3 << 20) + "*/" + HI))
    yield "a source of 3 MiB", (run.returncode, run.stdout, run.stderr) == (0, b"Hi", b"")


def main():
    program = os.path.abspath(sys.argv[1])
    done = [it for group in (calls, class_files, devices, memory, long_source) for it in group(program)]
    failed = [name for name, passed in done if not passed]
    print(f"the program: {len(done) - len(failed)} calls passed, {len(failed)} failed")
    print(*failed, sep="\n", end="\n" if failed else "")
    return 1 if failed else 0


sys.exit(main())
