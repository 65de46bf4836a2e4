"""How long a program takes and how much memory, for the scripts beside this one."""

import os
import subprocess
import sys
import time


def measured(program, file, words, runs):
    """The seconds, and the most memory in MB, of the best of some runs; their standard output goes nowhere."""
    best, most = None, 0
    for _ in range(runs):
        with open(file, "rb") as source:
            start = time.perf_counter()
            child = subprocess.Popen([str(program), *words], stdin=source, stdout=subprocess.DEVNULL)
            _, status, used = os.wait4(child.pid, 0)
            seconds = time.perf_counter() - start
        if status != 0:
            sys.exit("%s ended with %d" % (program, status))
        best = seconds if best is None else min(best, seconds)
        most = max(most, used.ru_maxrss / 1024)
    return best, most


def turns(program, file):
    """How many turns did something. The trace isn't kept: a child's most memory is at least this process's."""
    with open(file, "rb") as source:
        with subprocess.Popen([str(program), "step", "--trace"], stdin=source, stdout=subprocess.PIPE, stderr=subprocess.DEVNULL) as child:
            for line in child.stdout:
                if line.startswith(b"trace "):
                    return int(line[6:])
    sys.exit("no trace of %s by %s" % (file, program))
