"""Finds the program and runs it."""

import os
import shutil
import subprocess
import sys
from pathlib import Path

from . import needs

PACKAGE = Path(__file__).resolve().parent
TOP = PACKAGE.parent.parent


class NoProgram(Exception):
    pass


def script(name):
    """The file of a tool: beside the package, or in it where it is installed as a Python package."""
    inside = PACKAGE / "commands" / name
    return inside if inside.is_file() else PACKAGE.parent / name


def called():
    """The program as a person calls it: `bin/speedlight` in a clone, `speedlight` where it is installed."""
    return "speedlight" if needs.called().startswith("speedlight-") else "bin/speedlight"


def compiled():
    """The compiled program, or None: that of the gate or of bin/build, else the one that is installed beside the tool,
    `speedlight` on the path, and the unproved one that bin/speedlight kept."""
    built = TOP / "crates" / "speedlight" / "out" / "speedlight"
    beside = Path(sys.argv[0]).absolute().parent / "speedlight"
    kept = TOP / "out" / "unproved"
    for path in (built, beside, shutil.which("speedlight"), kept):
        if path and os.path.isfile(path) and os.access(path, os.X_OK):
            return str(path)
    return None


def find(given=None):
    """The program: the given one, else the compiled one, else bin/speedlight, which compiles it."""
    if given:
        path = shutil.which(given) or (given if os.access(given, os.X_OK) and os.path.isfile(given) else None)
        if path is None:
            raise NoProgram(f"no program at {given}")
        return os.path.abspath(path)
    found = compiled() or shutil.which(str(TOP / "bin" / "speedlight"))
    if found is None:
        raise NoProgram("no program found: give --program PATH, or make it with bin/build")
    return found


def run(program, words, data=b""):
    """Status, standard output and standard error of a run."""
    try:
        done = subprocess.run([program, *words], input=data, stdout=subprocess.PIPE, stderr=subprocess.PIPE)
    except OSError as error:
        raise NoProgram(f"{program}: {error.strerror}") from None
    return done.returncode, done.stdout, done.stderr.decode("utf-8", "replace")


def fault(program, status, errors):
    """A sentence on a run that gave no answer."""
    lines = errors.strip().splitlines()
    return f"{program} ended with status {status}" + (f": {lines[-1]}" if lines else "")


def refusal_line(errors):
    """The program's own line among what it wrote to standard error, or an empty text."""
    lines = [line for line in errors.splitlines() if line.startswith("speedlight: ")]
    return lines[-1] if lines else ""
