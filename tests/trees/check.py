#!/usr/bin/env python3
"""check.py JC_TREE_TOOL: of every source of tests/syntax that is taken, and of the library's texts, the copy of the tree is the same; a
source twice is the same, and two sources at different places aren't."""
import os, re, subprocess, sys, tempfile

HERE = os.path.dirname(os.path.abspath(__file__))
LINE = re.compile(r"height \d+, first token at \d+, its copy is the same(, as the one before)?")


def taken():
    folder = os.path.join(HERE, "..", "syntax", "cases")
    for name in sorted(os.listdir(folder)):
        with open(os.path.join(folder, name), encoding="utf-8", errors="replace") as it:
            if it.readline().startswith("// taken"):
                yield os.path.abspath(os.path.join(folder, name))


def library():
    """The library's texts, but for what only the library may say."""
    folder = os.path.join(HERE, "..", "..", "crates", "jc_prelude", "src")
    for name in sorted(os.listdir(folder)):
        with open(os.path.join(folder, name), encoding="utf-8") as it:
            for text in re.findall(r'r#"(.*?)"#', it.read(), re.S):
                yield re.sub(r"\bnative ", "abstract ", text)


def said(program, paths):
    return subprocess.run([program, *paths], stdout=subprocess.PIPE, timeout=100).stdout.decode().splitlines()


def main():
    program = os.path.abspath(sys.argv[1])
    with tempfile.TemporaryDirectory() as folder:
        paths = list(taken())
        for n, text in enumerate(library()):
            paths.append(os.path.join(folder, f"Library{n}.java"))
            with open(paths[-1], "w", encoding="utf-8") as it:
                it.write(text)
        lines = said(program, paths)
        found = [LINE.fullmatch(line) for line in lines]
        wrong = len(paths) - sum(1 for it in found if it and not it.group(1)) if len(lines) == len(paths) else len(paths)
        twice = said(program, [it for path in paths for it in (path, path)])
        again = [LINE.fullmatch(line) for line in twice[1::2]]
        wrong += sum(1 for it in again if not it or not it.group(1)) if len(twice) == 2 * len(paths) else len(paths)
    print(f"trees: {len(paths)} sources, {wrong} copies or comparisons wrong")
    return 1 if wrong else 0


sys.exit(main())
