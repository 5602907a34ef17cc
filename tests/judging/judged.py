"""Cases of sources with what is to be said of them, and what javac and the program say.

A case is a folder with sources and these files: `files`, the order of its sources; `expected`, one line, `ok` or `FILE:LINE: error NUMBER`, the
least break by file, place and number; `why`, where javac judges otherwise, one line with the reason; `rule`, where docs/RULES.md shows the case; `javac`, if
it is there, what javac says of the case with Java's own library, a line each.

javac judges each case twice: with Java's own library of release 7, and with javag's library as its platform. It agrees where it takes what is
`ok`, and else where its least error stands in the expected line and an error of that line is of the expected sort. Where it doesn't agree
with a case in both, the case has a `why`; where it does, it has none.
"""
import os
import re
import shutil
import subprocess
import sys
import tempfile

HERE = os.path.dirname(os.path.abspath(__file__))
sys.path.insert(0, os.path.join(HERE, "..", "prelude"))
from texts import write, write_all

SAID = re.compile(r"^(.*?):(\d+): error (\d+): ", re.M)
# the most seconds of one answer
SECONDS = 60

# where annotations may stand, and what javac asks of a platform for that (JLS 9.6.3)
PLACES = {
    "java/lang/Enum": "package java.lang; public abstract class Enum<E extends Enum<E>> { protected Enum(String name, int at) { }"
                      " public static <T extends Enum<T>> T valueOf(Class<T> of, String name) { return null; } }",
    "java/lang/annotation/ElementType": "package java.lang.annotation; public enum ElementType {"
                                        " TYPE, FIELD, METHOD, PARAMETER, CONSTRUCTOR, LOCAL_VARIABLE, ANNOTATION_TYPE, PACKAGE }",
    "java/lang/annotation/Target": "package java.lang.annotation; public @interface Target { ElementType[] value(); }",
    "java/lang/Override": "package java.lang; import java.lang.annotation.*; @Target(ElementType.METHOD) public @interface Override { }",
    "java/lang/SafeVarargs": "package java.lang; import java.lang.annotation.*;"
                             " @Target({ ElementType.CONSTRUCTOR, ElementType.METHOD }) public @interface SafeVarargs { }",
}


def read(*path):
    with open(os.path.join(*path), encoding="utf-8") as f:
        return f.read()


class Case:
    """Sources in a folder, in order, and what is to be said of them."""

    def __init__(self, name, folder, files, expected, differs):
        self.name = name
        self.folder = folder
        self.files = files
        self.expected = expected
        # javac judges otherwise
        self.differs = differs
        parts = re.fullmatch(r"ok|(\w+\.java):(\d+): error (\d+)", self.expected)
        if parts is None:
            sys.exit("judging: %s expects %r" % (name, self.expected))
        self.file = parts.group(1)
        self.line = int(parts.group(2) or 0)
        self.rule = int(parts.group(3) or 0)


def all_cases(top):
    """The cases in a folder: each is a folder with sources and the files `files`, `expected`, perhaps `why` and `rule`."""
    for name in sorted(os.listdir(top)):
        folder = os.path.join(top, name)
        yield Case(name, folder, read(folder, "files").split(), read(folder, "expected").rstrip("\n"), os.path.exists(os.path.join(folder, "why")))


def judge(room, cases, options):
    """For each case javac's errors: file, line, sort and text."""
    made = tempfile.mkdtemp(dir=room)
    jobs = "".join("\t".join([case.folder] + case.files) + "\n" for case in cases)
    run = subprocess.run(["java", "-XX:TieredStopAtLevel=1", "-XX:+UseSerialGC", os.path.join(HERE, "Judge.java"), made] + options, input=jobs,
                         stdout=subprocess.PIPE, stderr=subprocess.PIPE, text=True, encoding="utf-8", timeout=600)
    if run.returncode:
        sys.exit("judging: javac could not be asked\n" + run.stderr)
    parts = re.split(r"^job \d+\n", run.stdout, flags=re.M)[1:]
    return [[line.split("\t") for line in part.splitlines()] for part in parts]


def library(room):
    """A folder with the class files of javag's library, and of the annotations with their places."""
    platform, prelude = write_all(os.path.join(room, "texts"))
    for path, text in PLACES.items():
        path = os.path.join(room, "texts", path + ".java")
        platform += [path] if path not in platform else []
        write(path, text)
    os.makedirs(os.path.join(room, "none"))
    made = os.path.join(room, "library")
    run = subprocess.run(["javac", "-source", "7", "-target", "7", "-nowarn", "-Xlint:none", "-proc:none", "-bootclasspath", os.path.join(room, "none"),
                          "-d", made] + platform + prelude, stdout=subprocess.PIPE, stderr=subprocess.STDOUT, text=True)
    if run.returncode:
        sys.exit("judging: javac refuses the library\n" + run.stdout)
    return made


def told(errors):
    """What a file `javac` has of these errors."""
    return "".join("%s:%s: %s\n" % (error[0], error[1], error[2]) for error in errors) or "nothing\n"


def difference(case, errors, sorts_of):
    """What javac says otherwise than the case expects, or None. `sorts_of` has the names that javac gives the errors of a rule."""
    if case.rule == 0:
        return "refuses it: %s" % " ".join(errors[0]) if errors else None
    if not errors:
        return "takes it"
    least = min(((case.files.index(error[0]), int(error[1])) for error in errors if error[0] in case.files), default=None)
    if least != (case.files.index(case.file), case.line):
        return "refuses it first at %s" % (least and "%s:%d: %s" % (case.files[least[0]], least[1], sorted({e[2] for e in errors if e[0] == case.files[least[0]] and e[1] == str(least[1])})))
    sorts = {error[2] for error in errors if error[:2] == [case.file, str(case.line)]}
    if case.rule in sorts_of and not sorts & sorts_of[case.rule]:
        return "has another error there: %s" % ", ".join(sorted(sorts))
    return None


def against_javac(cases, sorts_of, room):
    """The lines of what javac says otherwise, by its own library and by javag's."""
    own = library(room)
    first = judge(room, cases, ["--release", "7"])
    second = judge(room, cases, ["-source", "7", "-target", "7", "-bootclasspath", own])
    for case, theirs, ours in zip(cases, first, second):
        if os.path.exists(os.path.join(case.folder, "javac")) and read(case.folder, "javac") != told(theirs):
            yield "of %s javac says another thing than its file: %s" % (case.name, told(theirs))
        said = [(what, difference(case, errors, sorts_of)) for what, errors in (("", theirs), (" with javag's library", ours))]
        said = ["javac%s %s" % one for one in said if one[1]]
        line = "%s expects %s: %s" % (case.name, case.expected, "; ".join(said))
        if said and not case.differs:
            yield line
        elif said and "-v" in sys.argv:
            print(line)
        elif case.differs and not said:
            yield "%s is to differ, and javac agrees" % case.name


# the program

def javag_says(javag, case, room):
    """The status, and the refusal's file, line and number."""
    out = tempfile.mkdtemp(dir=room)
    run = subprocess.run([javag, "--out", out] + case.files, cwd=case.folder, stdout=subprocess.PIPE, stderr=subprocess.PIPE, timeout=SECONDS)
    shutil.rmtree(out)
    found = SAID.findall(run.stderr.decode("utf-8", "replace"))
    return run.returncode, [(file, int(line), int(rule)) for file, line, rule in found]
