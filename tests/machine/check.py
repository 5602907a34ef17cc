#!/usr/bin/env python3
"""Compares the machine with java: check.py TOOL [NAME ..]

TOOL is the program that runs class files. javac compiles the prelude's texts as the platform's own classes, and the programs in
programs/ and own/ against them, all in one run. Short forms of instructions and tables of switches are rewritten, and attributes that
the profile lacks are left out. Then each program of programs/ runs in the tool, with the prelude's classes, and in java, with java's own
library; output and ending have to be the same. A line `// arguments: ..` or `// input: ..` at the head of a program is its command line
or its input.

The programs of large.py are too long to be kept as texts, and are written into the room where the check works.

The programs of own/ show what is javag's own rule, as the numbers of identity hashes; beside each stands what the rule says.

Then classes that no compiler makes (odd.py) run in the tool: where they are valid java runs them too, else the ending is the one that the
machine's table gives. With names behind TOOL only these programs and classes are tried. `--java-alone` in place of TOOL runs java alone.
"""
import concurrent.futures
import os
import re
import shlex
import shutil
import sys
import tempfile

sys.dont_write_bytecode = True
import large
import odd
from runs import compile_all, needed, ran_in_java, ran_in_tool
from widen import short_of

HERE = os.path.dirname(os.path.abspath(__file__))
PROGRAMS = os.path.join(HERE, "programs")
OWN = os.path.join(HERE, "own")
JOBS = 2
# the opcodes of the profile, as its documents list them
PROFILE = (set(range(0x01, 0x0b)) | set(range(0x10, 0x17)) | {0x19, 0x36, 0x37, 0x3a, 0x84, 0xc4, 0x2e, 0x2f, 0x4f, 0x50, 0xbe}
           | set(range(0x32, 0x36)) | set(range(0x53, 0x60)) | {base + n for base in range(0x60, 0x78, 4) for n in (0, 1)}
           | set(range(0x78, 0x84)) | {0x94, 0x85, 0x88, 0x91, 0x92, 0x93} | set(range(0x99, 0xa8)) | {0xc6, 0xc7, 0xab}
           | {0xac, 0xad, 0xb0, 0xb1, 0xbf} | set(range(0xb2, 0xba)) | {0xbb, 0xbc, 0xbd, 0xc5, 0xc0, 0xc1})


class Program:
    """A program of a folder, by the name of its file."""

    def __init__(self, top, path):
        self.path, self.top = path, top
        self.name = os.path.relpath(path, top)[:-len(".java")].replace(os.sep, ".")
        with open(path, encoding="utf-8") as file:
            text = file.read()
        self.arguments = shlex.split(self.head(text, "arguments"))
        self.input = self.head(text, "input").encode("ascii").decode("unicode_escape").encode("latin-1")
        self.exits = "System.exit(" in text

    @staticmethod
    def head(text, word):
        found = re.match(r"// " + word + r": ?(.*)\n", text)
        return found.group(1) if found else ""

    def told(self):
        """The output and the ending that the file beside it tells."""
        with open(self.path[:-len(".java")] + ".txt", encoding="utf-8") as file:
            output, ending = file.read().rsplit("=> ", 1)
        return output.encode(), ending.strip()


def programs(top):
    found = []
    for folder, _, names in os.walk(top):
        found += [Program(top, os.path.join(folder, name)) for name in names if name.endswith(".java") and name != "Out.java"]
    return sorted(found, key=lambda program: program.name)


def low_byte(ending):
    """An ending whose status is cut to what the system keeps of it."""
    return f"exited {int(ending[7:]) % 256}" if re.fullmatch(r"exited -?\d+", ending) else ending


def first_difference(wanted, given):
    for number, (first, second) in enumerate(zip(wanted.split(b"\n"), given.split(b"\n")), 1):
        if first != second:
            return f"line {number}: wanted {first[:120]!r}, machine {second[:120]!r}"
    return f"wanted {len(wanted)} bytes, the machine has {len(given)}"


def difference(wanted, given):
    """What differs of two pairs of output and ending, or None."""
    if low_byte(given[1]) != wanted[1]:
        return f"wanted {wanted[1]}, machine {given[1]}, whose output ends with {given[0][-200:]!r}"
    return first_difference(wanted[0], given[0]) if given[0] != wanted[0] else None


class Comparison:
    def __init__(self, tool, room):
        self.tool, self.room = tool, room
        self.classes, self.prelude = compile_all(room, [PROGRAMS, OWN, f"{room}/large"])

    def wanted(self, program):
        if program.top == OWN:
            return program.told()
        wanted = ran_in_java(f"{self.room}/programs", program.name, program.arguments, program.input, program.exits)
        if wanted[0] and not wanted[0].endswith(b"\n"):
            sys.exit(f"machine: java's output of {program.name} doesn't end with a line end")
        if not re.match(r"ended|threw |exited ", wanted[1]):
            sys.exit(f"machine: {program.name}: {wanted[1]}")
        return wanted

    def of(self, program):
        """What differs in a program, or None."""
        wanted = self.wanted(program)
        if self.tool is None:
            return None
        files = [f"{self.room}/programs/{name}.class" for name in needed(self.classes, program.name.replace(".", "/"))]
        given = ran_in_tool(self.tool, [program.name] + self.prelude + files + ["--"] + program.arguments, program.input)
        fault = difference(wanted, given)
        return fault and f"{program.name}: {fault}"

    def of_odd(self, case):
        """What differs in a case, or None."""
        folder = f"{self.room}/odd/{case.name}"
        files = []
        for name, data in case.files():
            files.append(f"{folder}/{name}.class")
            os.makedirs(os.path.dirname(files[-1]), exist_ok=True)
            with open(files[-1], "wb") as file:
                file.write(data)
        wanted = case.output
        if case.is_valid:
            wanted, ending = ran_in_java(folder, "Main", [], b"", False)
            if case.output not in (None, wanted) or ending != case.ending:
                return f"{case.name}: java gives {wanted, ending}"
        if self.tool is None:
            return None
        output, ending = ran_in_tool(self.tool, ["Main"] + (self.prelude if case.has_prelude else []) + files, memory=case.memory)
        if not re.fullmatch(case.ending, ending):
            return f"{case.name}: wanted {case.ending}, machine {ending}, whose output ends with {output[-200:]!r}"
        return f"{case.name}: {first_difference(wanted, output)}" if output != wanted else None

    def opcodes(self):
        """The opcodes that stand in the rewritten classes."""
        found = set()
        for one in self.classes.values():
            for code in one.opcodes:
                long_form = short_of(code)
                found.add(long_form[0] if long_form else 0xab if code == 0xaa else code)
        return found


def told(faults):
    """Prints each fault as it comes, and gives their number."""
    count = 0
    for fault in faults:
        if fault:
            count += 1
            print(f"machine: {fault}", flush=True)
    return count


def main():
    tool = None if sys.argv[1] == "--java-alone" else os.path.abspath(sys.argv[1])
    names = set(sys.argv[2:])
    for word in ("javac", "java"):
        if not shutil.which(word):
            print(f"skipped: the comparison of the machine with java needs {word}")
            return
    cases = [case for case in odd.cases() if not names or case.name in names]
    with tempfile.TemporaryDirectory() as room:
        large.write_all(f"{room}/large")
        chosen = [program for top in (PROGRAMS, OWN, f"{room}/large") for program in programs(top) if not names or program.name in names]
        comparison = Comparison(tool, room)
        missing = PROFILE - comparison.opcodes() - set().union(*(case.opcodes() for case in odd.cases()))
        with concurrent.futures.ThreadPoolExecutor(JOBS) as pool:
            count = told(pool.map(comparison.of, chosen)) + told(pool.map(comparison.of_odd, cases))
    if missing:
        count += 1
        print("machine: no program has the instructions " + " ".join(f"{code:02x}" for code in sorted(missing)))
    print(f"machine: {len(chosen)} programs and {len(cases)} odd classes: {count} differences")
    sys.exit(1 if count else 0)


if __name__ == "__main__":
    main()
