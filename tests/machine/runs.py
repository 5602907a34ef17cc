"""Programs in Java as class files of the profile, and their runs in java and in the machine."""
import os
import re
import resource
import subprocess
import sys

HERE = os.path.dirname(os.path.abspath(__file__))
sys.path.insert(0, os.path.join(HERE, "..", "prelude"))
from rewrite import Class
from texts import write_all

JAVA = ["java", "-Xint", "-Xss900m", "-XX:+UseSerialGC", "-Xshare:auto", "-Dfile.encoding=UTF-8", "-Dstdout.encoding=UTF-8",
        "-Dsun.stdout.encoding=UTF-8"]
ENVIRONMENT = dict(os.environ, LC_ALL="C.UTF-8")
SECONDS = 100
MEMORY = 2 << 30


def compile_all(room, folders):
    """The class files of the prelude and of the programs of some folders, in two folders, rewritten; the classes by their names, and
    the prelude's files in order. What is not in the profile stops the check."""
    platform, prelude = write_all(f"{room}/texts")
    sources = [os.path.join(folder, name) for top in folders for folder, _, names in os.walk(top) for name in names if name.endswith(".java")]
    os.makedirs(f"{room}/none")
    words = ["javac", "-source", "7", "-target", "7", "-g:none", "-nowarn", "-Xlint:none", "-encoding", "UTF-8", "-proc:none",
             "-bootclasspath", f"{room}/none", "-d", f"{room}/made"]
    said = subprocess.run(words + platform + prelude + sources, stdout=subprocess.PIPE, stderr=subprocess.STDOUT, text=True)
    if said.returncode:
        sys.exit("machine: javac refuses the programs\n" + said.stdout[:3000])
    left_out = {os.path.relpath(path, f"{room}/texts")[:-5] for path in platform}
    classes = {}
    for folder, _, names in os.walk(f"{room}/made"):
        for name in names:
            with open(os.path.join(folder, name), "rb") as file:
                one = Class(file.read())
            if one.name not in left_out:
                classes[one.name] = one
    constants = set().union(*(one.constants for one in classes.values()))
    for one in classes.values():
        if one.static_reads & constants:
            sys.exit(f"machine: {one.name} reads a constant by an instruction: {sorted(one.static_reads & constants)}")
        part = "prelude" if one.name.startswith("java/") else "programs"
        path = f"{room}/{part}/{one.name}.class"
        os.makedirs(os.path.dirname(path), exist_ok=True)
        with open(path, "wb") as file:
            file.write(one.bytes)
    order = ["java/lang/Object"] + sorted(name for name in classes if name.startswith("java/") and name != "java/lang/Object")
    return classes, [f"{room}/prelude/{name}.class" for name in order]


def element_class(name):
    """The class that a name in the pool means, which is that of the elements where it is an array's descriptor."""
    of_array = re.fullmatch(r"\[+L(.*);", name)
    return of_array.group(1) if of_array else name


def needed(classes, main):
    """The program's classes that a class names, itself among them, and what these name."""
    found, wait = [], [main]
    while wait:
        name = wait.pop()
        if name in found or name not in classes or name.startswith("java/"):
            continue
        found.append(name)
        wait += sorted(map(element_class, classes[name].pool.class_names()))
    return found


def ran_in_tool(tool, words, given=b"", memory=MEMORY):
    """The output and the ending, as the tool's last line on its error output says it, with so many bytes of memory."""
    try:
        done = subprocess.run([tool] + words, input=given, stdout=subprocess.PIPE, stderr=subprocess.PIPE, env=ENVIRONMENT, timeout=SECONDS,
                              preexec_fn=lambda: resource.setrlimit(resource.RLIMIT_AS, (memory, memory)))
    except subprocess.TimeoutExpired as late:
        return late.stdout or b"", "no end"
    if done.returncode not in (0, 1):
        return done.stdout, f"fault {done.returncode}: {done.stderr[-200:].decode(errors='replace')}"
    said = done.stderr.decode(errors="replace").splitlines()
    return done.stdout, said[-1] if said else "nothing said"


def ran_in_java(folder, main, arguments, given, exits):
    done = subprocess.run(JAVA + ["-cp", folder, main] + arguments, input=given, stdout=subprocess.PIPE, stderr=subprocess.PIPE,
                          env=ENVIRONMENT)
    thrown = re.search(r'^Exception in thread "main" ([\w.$]+)', done.stderr.decode(errors="replace"), re.M)
    if thrown:
        return done.stdout, "threw " + thrown.group(1)
    if done.stderr:
        return done.stdout, "java says " + done.stderr.decode(errors="replace")[:500]
    return done.stdout, f"exited {done.returncode}" if exits else "ended"
