#!/usr/bin/env python3
"""Compares what the built program says of sources with what is written at their heads, and with javac's parser: check.py JAVAG

The first line of each file in cases/ says what is to be: "// taken", or "// 203 at line 4, javac takes it", or "// 202, javac refuses it".
A source that breaks no rule of the lexical and the syntactic stage is refused by a rule of a later stage, or with 900, and javac's
parser takes it. Sources that are too large to be kept are made here. The comparison with javac is skipped where there is none.
"""
import os
import re
import shutil
import subprocess
import sys
import tempfile

import ordinary

HEAD = re.compile(r"// (?:(taken)|(\d+)(?: at line (\d+))?, javac (takes|refuses) it)")
SAID = re.compile(r"(.*):(\d+): error (\d+): ")
UNBUILT = "900"
# what is said of a source that these stages take: a rule of a later stage, or 900
LATER = None
# the last rule of these stages
LAST = 203
# the most bytes that a source may have together with those before it
MOST = 16777216


class Case:
    def __init__(self, folder, name):
        self.name = name
        self.path = os.path.join(folder, name)
        with open(self.path, "rb") as f:
            head = HEAD.fullmatch(f.readline().decode().rstrip("\n"))
        self.rule = head.group(2)
        self.line = head.group(3)
        self.javac_takes = head.group(1) is not None or head.group(4) == "takes"


def javag_says(javag, paths, folder):
    run = subprocess.run([javag, *paths], cwd=folder, stdout=subprocess.PIPE, stderr=subprocess.PIPE)
    said = SAID.match(run.stderr.decode())
    return (run.returncode, *said.groups()) if said else (run.returncode, None, None, None)


def wrong(case, status, line, rule):
    if status != 3:
        return "ends with %d" % status
    if case.rule is None:
        return None if rule is not None and int(rule) > LAST else "is refused with %s in line %s" % (rule, line)
    if rule != case.rule or (case.line is not None and line != case.line):
        return "is refused with %s in line %s, and not %s in line %s" % (rule, line, case.rule, case.line)
    return None


def refused_by_javac(javac, cases, folder):
    said = subprocess.run([javac, "--release", "7", "-proc:none", "-nowarn", "-encoding", "UTF-8", "-Xmaxerrs", "100000",
                           "-XDshould-stop.ifError=PARSE", "-XDshould-stop.ifNoError=PARSE", "-d", folder] + [case.path for case in cases],
                          stdout=subprocess.PIPE, stderr=subprocess.STDOUT).stdout.decode(errors="replace")
    return {os.path.basename(path) for path in re.findall(r"^(\S+\.java):\d+: error", said, re.M)}


def last_line(text):
    return str(text.count("\n") + 1)


# small sources, each with one or more breaks
SMALL = {
    "Good.java": "class Good { }\n",
    "Empty.java": "",
    "Lexical.java": "\nclass A { char c = ''; }\n",
    "Comment.java": "class A { }\n\n/*\n",
    "Bytes.java": "\n\n\nclass A { } #\n",
    "Word.java": "\n\nclass A { float f; }\n",
    "Syntax.java": "\n\n\nclass A { int }\n",
    "Form.java": "\n\n\n\nclass A { class B { } }\n",
    # a later rule stands before an earlier one
    "Mixed.java": "@Foo class A {\n  int }\nclass B {\n  double d;\n  char c = 09;\n}\n",
    "Words.java": "@Foo class A {\n  int }\nclass B {\n  double d; enum E { }\n}\n",
    "Two.java": "class A {\n  int }\nclass B {\n  int }\n",
    "Forms.java": "class A {\n  Object o = int.class;\n  class B { }\n}\n",
    "Tail.java": "class A {\n  int b = 1;\n\n",
}

# files of one job, and the least break by stage, by file and by place
JOBS = (
    (["Empty.java"], ("Empty.java", "1", UNBUILT)),
    (["Good.java", "Empty.java"], ("Good.java", "1", UNBUILT)),
    # an earlier stage, in a later file
    (["Good.java", "Syntax.java", "Lexical.java"], ("Lexical.java", "2", "105")),
    (["Word.java", "Form.java", "Bytes.java"], ("Bytes.java", "4", "104")),
    (["Form.java", "Word.java", "Syntax.java", "Comment.java"], ("Comment.java", "3", "106")),
    # an earlier file, in the same stage
    (["Comment.java", "Lexical.java"], ("Comment.java", "3", "106")),
    (["Lexical.java", "Comment.java"], ("Lexical.java", "2", "105")),
    (["Form.java", "Word.java"], ("Form.java", "5", "203")),
    (["Good.java", "Syntax.java", "Word.java"], ("Syntax.java", "4", "202")),
    (["Word.java", "Syntax.java"], ("Word.java", "3", "201")),
    (["Good.java", "Empty.java", "Form.java", "Syntax.java"], ("Form.java", "5", "203")),
    # an earlier place, in the same file; and of one file 201 before 202 before 203
    (["Mixed.java"], ("Mixed.java", "5", "105")),
    (["Words.java"], ("Words.java", "4", "201")),
    (["Two.java"], ("Two.java", "2", "202")),
    (["Forms.java"], ("Forms.java", "2", "203")),
    # the end of a file
    (["Tail.java"], ("Tail.java", "4", "202")),
    # a file that is named twice
    (["Word.java", "Word.java"], ("Word.java", "3", "201")),
)

ROW = "class Main /* a program */ { public static void main(String[] args) { System.out.write(70 + 2); System.out.write(105); } }\n"


def large():
    """Sources at the limit of bytes: files with their texts, and what is to be said."""
    whole = ordinary.source(MOST)
    broken = ordinary.source(MOST, "class A { int }")
    yield {"Large.java": whole}, LATER
    yield {"Large.java": broken}, ("Large.java", last_line(broken), "202")
    # one byte too many, in one file and in two, and before another lexical fault of the file
    yield {"Large.java": whole + "\n"}, ("Large.java", "1", "101")
    yield {"Large.java": broken, "More.java": "\n"}, ("More.java", "1", "101")
    yield {"Large.java": "\n#\n" + whole}, ("Large.java", "1", "101")
    yield {"First.java": "\n#\n", "Large.java": whole}, ("First.java", "2", "104")


def differences(javag, folder):
    """How many jobs were asked, and a line for each that was answered otherwise."""
    bad = []
    checks = 0
    for name, text in SMALL.items():
        with open(os.path.join(folder, name), "w") as f:
            f.write(text)
    for files, wanted in JOBS:
        checks += 1
        status, *said = javag_says(javag, files, folder)
        if (status, *said) != (3, *wanted):
            bad.append("javag: of %s: %s with status %s, and not %s" % (files, tuple(said), status, wanted))
    for texts, wanted in large():
        checks += 1
        for name, text in texts.items():
            with open(os.path.join(folder, name), "w") as f:
                f.write(text)
        status, *said = javag_says(javag, list(texts), folder)
        is_later = status == 3 and said[2] is not None and int(said[2]) > LAST
        if not is_later if wanted is LATER else (status, *said) != (3, *wanted):
            bad.append("javag: of %s: %s with status %s, and not %s" % ({name: len(text) for name, text in texts.items()}, tuple(said), status, wanted))
    checks += 1
    with open(os.path.join(folder, "Main.java"), "w") as f:
        f.write(ROW)
    run = subprocess.run([javag, "--run", "Main", "Main.java"], cwd=folder, stdout=subprocess.PIPE, stderr=subprocess.PIPE)
    if (run.returncode, run.stdout, run.stderr) != (0, b"Hi", b""):
        bad.append("javag: a program with a comment: %s" % run)
    return checks, bad


def main():
    javag = os.path.abspath(sys.argv[1])
    cases_folder = os.path.join(os.path.dirname(os.path.abspath(__file__)), "cases")
    cases = [Case(cases_folder, name) for name in sorted(os.listdir(cases_folder)) if name.endswith(".java")]
    with tempfile.TemporaryDirectory() as folder:
        checks, bad = differences(javag, folder)
        checks += len(cases)
        for case in cases:
            status, _, line, rule = javag_says(javag, [case.path], folder)
            fault = wrong(case, status, line, rule)
            if fault:
                bad.append("javag: %s %s" % (case.name, fault))
        javac = shutil.which("javac")
        if javac is None:
            print("skipped: the comparison of syntax needs javac")
        else:
            refused = refused_by_javac(javac, cases, folder)
            checks += len(cases)
            bad += ["javac %s %s" % ("takes" if case.name not in refused else "refuses", case.name) for case in cases if (case.name not in refused) != case.javac_takes]
    for line in bad:
        print(line)
    print("syntax: %d checks, %d differ" % (checks, len(bad)))
    return 1 if bad else 0


if __name__ == "__main__":
    sys.exit(main())
