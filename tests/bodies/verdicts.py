"""What javac says of many sources in one run."""
import os
import sys
import tempfile

HERE = os.path.dirname(os.path.abspath(__file__))
sys.path.insert(0, os.path.join(HERE, "..", "judging"))
from judged import Case, judge

# errors behind which javac asks nothing else of any source
PARSER = {"illegal.start.of.type", "illegal.start.of.expr", "illegal.start.of.stmt", "expected", "expected2", "expected3", "int.number.too.large", "not.stmt", "premature.eof"}


def file_of(number):
    return "P%d.java" % number


def text_of(number, lines):
    """A program as a source of a package of its own."""
    return "package p%d; %s\n" % (number, "\n".join(lines))


def write(folder, programs):
    for number, lines in enumerate(programs):
        with open(os.path.join(folder, file_of(number)), "w", encoding="utf-8") as f:
            f.write(text_of(number, lines))


def verdicts(programs, room):
    """Of each program, a list of lines, javac's errors: line and sort, the least line first."""
    folder = tempfile.mkdtemp(dir=room)
    write(folder, programs)
    said = [[] for _ in programs]
    left = list(range(len(programs)))
    while left:
        case = Case("lot", folder, [file_of(number) for number in left], "ok", False)
        now = {}
        for name, line, sort, _ in judge(tempfile.mkdtemp(dir=room), [case], ["--release", "7"])[0]:
            if name == "-":
                sys.exit("bodies: javac itself failed")
            now.setdefault(int(name[1:-5]), []).append((int(line), sort))
        unread = [number for number in now if any(sort in PARSER for _, sort in now[number])]
        for number in unread or now:
            said[number] = sorted(now[number])
        left = [number for number in left if number not in unread] if unread else []
    return said
