"""What the tests share: where things stand, how a tool is run, the examples and the table of mistakes."""

import os
import re
import subprocess
import sys
import tomllib
from pathlib import Path

TOP = Path(__file__).resolve().parent.parent.parent
TOOLS = TOP / "tools"
DATA = TOOLS / "tests" / "data"
EXAMPLES = TOP / "examples"
sys.path.insert(0, str(TOOLS))


# The system's Python first: it sees the libraries, so that no tool has to look for another.
ENVIRONMENT = {**os.environ, "PATH": f"/usr/bin{os.pathsep}{os.environ['PATH']}"}


def run(tool, *words, data=""):
    """Status, standard output and standard error of a tool."""
    done = subprocess.run(
        [str(TOOLS / tool), *map(str, words)],
        input=data.encode(),
        stdout=subprocess.PIPE,
        stderr=subprocess.PIPE,
        env=ENVIRONMENT,
    )
    return done.returncode, done.stdout.decode(), done.stderr.decode()


def expand(text):
    """The text with `<<N*ROW>>` written out."""

    def rows(found):
        made = []
        for i in range(int(found[1])):
            made.append(found[2].replace("#/8", str(i // 8)).replace("#%8", str(i % 8)).replace("#", str(i)))
        return ", ".join(made)

    return re.sub(r"<<(\d+)\*(.*?)>>", rows, text)


def accepted():
    """The examples that the program takes."""
    from speedlight_tools.inputs import Refusal, read_input

    found = []
    for path in sorted(EXAMPLES.glob("*.toml")):
        try:
            read_input(path)
            found.append(path)
        except Refusal:
            pass
    return found


def mistakes():
    with open(TOOLS / "tests" / "mistakes.toml", "rb") as file:
        return tomllib.load(file)["mistake"]
