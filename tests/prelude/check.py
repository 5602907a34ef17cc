#!/usr/bin/env python3
"""Checks the prelude's Java texts with javac and java, where they are there.

First the texts are compiled as they stand, as the platform's own classes: there may be no error and no warning. Then each of their
classes is renamed, as String to PString, and Driver.java compares what they do with what Java's own classes do.
"""
import os
import re
import shutil
import subprocess
import sys
import tempfile

sys.dont_write_bytecode = True
from texts import types, write, write_all

HERE = os.path.dirname(os.path.abspath(__file__))

# The bodies that the renamed natives get.
NATIVES = {
    "private native String className();": "private PString className() { return new PString(getClass().getName().toCharArray()); }",
    "public native int hashCode();": "public int hashCode() { return java.lang.System.identityHashCode(this); }",
    "private static native void halt(int status);": "private static void halt(int status) { Driver.halted = status; }",
    "private static native int readByte();": "private static int readByte() { return Driver.input.read(); }",
    "private static native void put(int value);": "private static void put(int value) { Driver.output.write(value); }",
}


def run(words):
    return subprocess.run(words, stdout=subprocess.PIPE, stderr=subprocess.STDOUT, text=True, check=False)


def compile_as_platform(room):
    platform, prelude = write_all(room)
    os.makedirs(f"{room}/none")
    words = ["javac", "-source", "7", "-target", "7", "-Xlint:all", "-Xlint:-options", "-bootclasspath", f"{room}/none", "-d", f"{room}/made"]
    said = run(words + platform + prelude)
    if said.returncode or said.stdout:
        print(said.stdout)
        sys.exit("the prelude's texts do not compile without a warning")


def renamed(text, names):
    for native, body in NATIVES.items():
        text = text.replace(native, "@" + native)
    pieces = re.split(r'("(?:[^"\\]|\\.)*"|\'(?:[^\'\\]|\\.)*\'|//[^\n]*)', text)
    for at in range(0, len(pieces), 2):
        piece = pieces[at]
        piece = re.sub(r"\bclass Object\b", "class PObject", piece)
        piece = re.sub(r"\bclass Throwable\b", "class Throwable extends RuntimeExceptionOfJava", piece)
        piece = re.sub(r"(\w+)\.toString\(\)", r"Driver.text(\1)", piece)
        piece = re.sub(r"\b(toString|getMessage)\(", r"p_\1(", piece)
        piece = re.sub(r"\b(" + "|".join(names) + r")\b", r"P\1", piece)
        pieces[at] = piece.replace("PPString", "PString").replace("RuntimeExceptionOfJava", "java.lang.RuntimeException")
    for at in range(1, len(pieces), 2):
        if pieces[at].startswith('"'):
            pieces[at] = f"new PString({pieces[at]}.toCharArray())"
    text = "".join(pieces)
    for native, body in NATIVES.items():
        native = native.replace(" String ", " PString ")
        text = text.replace("@" + native, body)
    return text


def compare(room):
    all_types = list(types())
    names = [name for _, _, name, _ in all_types if name != "Object"]
    paths = [os.path.join(HERE, "Driver.java")]
    for _, _, name, text in all_types:
        paths.append(f"{room}/prelude/P{name}.java")
        write(paths[-1], f"package prelude;\n{renamed(text, names)}\n")
    said = run(["javac", "--release", "8", "-Xlint:-options", "-d", f"{room}/run"] + paths)
    if said.returncode:
        print(said.stdout)
        sys.exit("the renamed texts do not compile")
    said = run(["java", "-cp", f"{room}/run", "prelude.Driver"] + [name for _, _, name, _ in all_types])
    print(said.stdout, end="")
    if said.returncode:
        sys.exit("the prelude differs from Java's own classes")


def main():
    if shutil.which("javac") is None or shutil.which("java") is None:
        print("prelude: skipped, since there is no javac or no java")
        return
    with tempfile.TemporaryDirectory() as room:
        compile_as_platform(os.path.join(room, "platform"))
        compare(os.path.join(room, "compare"))


main()
