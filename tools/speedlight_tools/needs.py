"""Finds a Python that has the libraries a tool stands on, and says which is missing where there is none.

This file is read by Pythons that are too old for the tools, too.
"""

import logging
import os
import shutil
import subprocess
import sys
from importlib import util

if __name__ != "__main__":
    from . import streams

# A library by the name that Python imports: the Debian packages that bring it, and the program that it calls.
LIBRARIES = {
    "matplotlib": (["python3-matplotlib"], None),
    "networkx": (["python3-networkx"], None),
    "graphviz": (["python3-graphviz", "graphviz"], "dot"),
    "snakemake": (["snakemake"], None),
    "jsonschema": (["python3-jsonschema"], None),
    "dpkt": (["python3-dpkt"], None),
    "selenium": (["python3-selenium", "chromium", "chromium-driver"], "chromedriver"),
}
# The libraries that one tool needs together.
GROUPS = [
    ("matplotlib",), ("networkx", "graphviz"), ("snakemake", "matplotlib"), ("jsonschema",), ("dpkt",), ("selenium",),
]
# What tools take as it stands, or tests call, and the Debian packages of it.
D3 = ("dispatch", "color", "interpolate", "ease", "timer", "selection", "transition", "drag", "zoom")
FILES = [(f"/usr/share/nodejs/d3-{part}/dist/d3-{part}.min.js", f"node-d3-{part}") for part in D3]
PROGRAMS = [("tshark", "tshark")]
MARK = "SPEEDLIGHT_TOOLS_PYTHON"
# The tool's name where it is installed in a Python package: that Python has the libraries, and no other is looked for.
PACKAGE = ""
# The Pythons that this call of a tool went through already, however often it asks: none of them is started again.
TRIED = [path for path in os.environ.pop(MARK, "").split(os.pathsep) if path]


def pythons():
    """The system's own Python 3, which sees Debian's packages, then each that the path leads to."""
    found, folders = [], set()
    if PACKAGE:
        return []
    for folder in ["/usr/bin"] + os.environ.get("PATH", "").split(os.pathsep) + ["/usr/local/bin"]:
        path = os.path.join(folder, "python3")
        if os.path.realpath(folder) not in folders and os.path.isfile(path) and os.access(path, os.X_OK):
            folders.add(os.path.realpath(folder))
            found.append(path)
    return [path for path in found if path not in TRIED]


def has(python, names):
    """The Python is 3.11 or later and finds all of the names."""
    code = "import sys, tomllib, importlib.util as u; sys.exit(any(u.find_spec(n) is None for n in sys.argv[1:]))"
    try:
        done = subprocess.run(
            [python, "-c", code] + list(names),
            stdin=subprocess.DEVNULL,
            stdout=subprocess.DEVNULL,
            stderr=subprocess.DEVNULL,
            timeout=60,
        )
    except (OSError, subprocess.TimeoutExpired):
        return False
    return done.returncode == 0


def calls(names):
    """The programs that the libraries call are there."""
    return all(shutil.which(LIBRARIES[n][1]) for n in names if n in LIBRARIES and LIBRARIES[n][1])


def python_with(*names):
    """A Python that imports all of the names, the one that runs this first; None where there is none."""
    if not calls(names):
        return None
    if imports(names):
        return sys.executable
    return next((p for p in pythons() if has(p, names)), None)


def lacking(names):
    """The first of the names that no Python imports, or the names where only no Python has all of them."""
    return next((name for name in names if python_with(name) is None), " and ".join(names))


def how_to_get(names):
    packages = [package for name in names if name in LIBRARIES for package in LIBRARIES[name][0]]
    if PACKAGE:
        programs = [LIBRARIES[name][1] for name in names if name in LIBRARIES and LIBRARIES[name][1]]
        return "pip install " + " ".join(names) + "".join(", and the program %s of graphviz" % it for it in programs)
    here = os.path.join(os.path.dirname(os.path.dirname(os.path.abspath(__file__))), "setup")
    setup = "run tools/setup, or: " if os.path.isfile(here) else ""
    return setup + "apt-get install " + " ".join(packages)


def imports(names):
    """This Python imports the names, and the programs that they call are there.

    Snakemake is looked for alone: it is run as a program, and takes a second to import.
    """
    # At its first run it says that it lists the fonts, or that the home folder can't be written.
    logging.getLogger("matplotlib").setLevel(logging.ERROR)
    try:
        for name in ("tomllib",) + tuple(names):
            if name == "snakemake":
                if util.find_spec(name) is None:
                    return False
            else:
                __import__(name)
    except ImportError:
        return False
    return calls(names)


def need(*names):
    """Goes on in a Python that imports the names. Where there is none, says so and ends with status 1.

    All Pythons are asked from here before one is started, and one that was started is never started again.
    """
    streams.prepare()
    if imports(names):
        return
    python = next((p for p in pythons() if calls(names) and has(p, names)), None)
    if python is not None:
        os.environ[MARK] = os.pathsep.join(TRIED + [python])
        os.execv(python, [python] + sys.argv)
    if not names or python_with() is None:
        why = "needs Python 3.11 or later, and found none"
    else:
        why = "needs %s, which no Python here has: %s" % (lacking(names), how_to_get(names))
    streams.complain(called(), why)
    sys.exit(1)


def called():
    """The tool's name as it was called: `tools/report`, or `speedlight-report` where it is installed."""
    name = PACKAGE or os.path.basename(sys.argv[0])
    return name if name.startswith("speedlight-") else "tools/" + name


def missing_packages():
    """The Debian packages of the libraries that the tools don't find."""
    packages = []
    for group in GROUPS:
        if python_with(*group) is None:
            packages += [package for name in group for package in LIBRARIES[name][0] if package not in packages]
    packages += [package for path, package in FILES if not os.path.isfile(path)]
    packages += [package for name, package in PROGRAMS if not shutil.which(name)]
    return packages


if __name__ == "__main__":
    print(" ".join(missing_packages()))
