#!/usr/bin/env python3
"""Compares the reader and the writer of class files with javac, javap and java: check.py TOOL

TOOL is the program that reads class files. What `javac --release 7` makes is read, or refused for a reason that the bytes show:
an instruction that the profile lacks, or an attribute other than Code, StackMapTable and InnerClasses. With its short forms of
instructions rewritten each class without debug tables is read; what is written again is read by `javap -v`, and `java -Xverify:all`
loads it and shows the same. Each byte of one class is changed to each other value, and each change is read or has a stated fault.
"""
import os
import re
import shutil
import subprocess
import sys
import tempfile

sys.dont_write_bytecode = True
from widen import pool_of, u2, widened

HERE = os.path.dirname(os.path.abspath(__file__))
KNOWN = {b"Code", b"StackMapTable", b"InnerClasses"}
FAULT = re.compile(r"(Short|Tag|Index|Opcode|Trailing|Text) at (\d+)|Magic|Version")
# the opcodes of the profile, as its documents list them
PROFILE = (set(range(0x01, 0x0b)) | set(range(0x10, 0x17)) | {0x19, 0x36, 0x37, 0x3a, 0x84, 0xc4, 0x2e, 0x2f, 0x4f, 0x50, 0xbe}
           | set(range(0x32, 0x36)) | set(range(0x53, 0x60)) | {base + n for base in range(0x60, 0x78, 4) for n in (0, 1)}
           | set(range(0x78, 0x84)) | {0x94, 0x85, 0x88, 0x91, 0x92, 0x93} | set(range(0x99, 0xa8)) | {0xc6, 0xc7, 0xab}
           | {0xac, 0xad, 0xb0, 0xb1, 0xbf} | set(range(0xb2, 0xba)) | {0xbb, 0xbc, 0xbd, 0xc5, 0xc0, 0xc1})


def run(words, folder, wanted=0):
    done = subprocess.run(words, cwd=folder, stdout=subprocess.PIPE, stderr=subprocess.PIPE)
    if wanted is not None and done.returncode != wanted:
        sys.exit(f"class files: {' '.join(words)} ended with {done.returncode}: {done.stderr.decode()[:500]}")
    return done.stdout.decode()


def told(tool, folder, words):
    """What the tool says of each file."""
    return [line.rsplit(": ", 1)[1] for line in run([tool] + words, folder).splitlines()]


def is_stated(data, line):
    """Whether the bytes show the reason for which the file is refused."""
    found = FAULT.fullmatch(line)
    if not found or not found.group(1):
        return False
    kind, at = found.group(1), int(found.group(2))
    if kind == "Opcode":
        return data[at] not in PROFILE
    return kind == "Tag" and pool_of(data)[0].get(u2(data, at)) not in KNOWN


def classes_in(folder):
    return sorted(name for name in os.listdir(folder) if name.endswith(".class"))


def compile_to(folder, debug):
    os.mkdir(folder)
    run(["javac", "--release", "7", debug, "-d", folder, os.path.join(HERE, "Main.java")], HERE)


def check_made(tool, folder):
    """What javac makes is read, or refused for a reason that the bytes show."""
    names = classes_in(folder)
    lines = told(tool, folder, names)
    for name, line in zip(names, lines):
        with open(os.path.join(folder, name), "rb") as file:
            data = file.read()
        if line != "ok" and not is_stated(data, line):
            sys.exit(f"class files: {name} has no fault that its bytes show: {line}")
    return sum(line == "ok" for line in lines), len(names)


def check_written(tool, made, wide, again):
    """The long forms are read and written again; javap reads that, and java shows the same."""
    os.mkdir(wide)
    os.mkdir(again)
    names = classes_in(made)
    for name in names:
        with open(os.path.join(made, name), "rb") as file:
            data = widened(file.read())
        with open(os.path.join(wide, name), "wb") as file:
            file.write(data)
    for name, line in zip(names, told(tool, wide, ["--write"] + names)):
        if line != "ok, written":
            sys.exit(f"class files: the long form of {name}: {line}")
        shutil.copy(os.path.join(wide, name + ".out"), os.path.join(again, name))
    if any(line != "ok" for line in told(tool, again, names)):
        sys.exit("class files: what was written is not read again")
    for name in names:
        if "major version: 51" not in run(["javap", "-v", "-p", name], again):
            sys.exit(f"class files: javap sees another version in {name}")
    shown = [run(["java", "-Xverify:all", "-cp", folder, "Main"], made) for folder in (made, wide, again)]
    if len(set(shown)) != 1 or not shown[0]:
        sys.exit("class files: java shows something else of what was written")
    return len(names)


def check_fuzz(tool, folder):
    """Each byte changed to each other value: every answer is a class or a stated fault."""
    name = "Square.class"
    size = os.path.getsize(os.path.join(folder, name))
    line = told(tool, folder, ["--fuzz", name])[0]
    counts = {word: int(number) for number, word in re.findall(r"(\d+) ([A-Za-z ]+)", line)}
    if sum(counts.values()) != 255 * size or counts["out of memory"] != 0 or 255 * size < 100_000:
        sys.exit(f"class files: the changes of {name} gave {line}")
    return 255 * size, counts["read"]


def main():
    tool = os.path.abspath(sys.argv[1])
    for needed in ("javac", "javap", "java"):
        if not shutil.which(needed):
            print(f"skipped: the comparison of class files needs {needed}")
            return
    with tempfile.TemporaryDirectory() as work:
        plain, debug, wide, again = (os.path.join(work, name) for name in ("plain", "debug", "wide", "again"))
        compile_to(plain, "-g:none")
        compile_to(debug, "-g")
        read, made = (sum(pair) for pair in zip(check_made(tool, plain), check_made(tool, debug)))
        written = check_written(tool, plain, wide, again)
        changes, still = check_fuzz(tool, wide)
    print(f"class files: of {made} that javac made {read} are read and the others refused for a reason that they show; "
          f"{written} in long forms are read, written again, listed by javap and run by java; "
          f"{changes} changes of one byte give {still} classes and else stated faults")


main()
