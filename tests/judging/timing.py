"""The processor time of a program that answers the same question many times."""
import resource
import subprocess
import sys


def least_time(program, text, wanted, runs):
    """The least processor time of some runs on a text, in which each answer behind the first line is the one that is wanted."""
    times = []
    for _ in range(runs):
        before = resource.getrusage(resource.RUSAGE_CHILDREN)
        run = subprocess.run([program], input=text, capture_output=True, text=True)
        after = resource.getrusage(resource.RUSAGE_CHILDREN)
        times.append((after.ru_utime - before.ru_utime) + (after.ru_stime - before.ru_stime))
    answers = set(run.stdout.splitlines()[1:])
    if answers != {wanted}:
        sys.exit(f"FAIL: {text.splitlines()[-1]}: {sorted(answers)[:3]}")
    return min(times)
