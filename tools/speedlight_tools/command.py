"""The frame of each tool: its options, its errors in plain words, and its status."""

import argparse
import sys

from . import VERSION, needs, streams
from .inputs import Refusal
from .program import NoProgram
from .reports import NoReport
from .streams import read_text  # noqa: tools read by command.read_text


class Trouble(Exception):
    """What a tool can't do, in plain words."""


def tool(name):
    """Another tool by the name that a person calls it by: `tools/explain`, or `speedlight-explain` where it is installed."""
    return f"speedlight-{name}" if needs.called().startswith("speedlight-") else f"tools/{name}"


def parser(name, description, **more):
    """The parser of a tool's words; its help names the tool, and the program, as they are called."""
    called = needs.called()
    installed = description.replace("tools/", "speedlight-").replace("bin/speedlight", "speedlight")
    made = argparse.ArgumentParser(
        prog=called,
        description=installed if called.startswith("speedlight-") else description,
        formatter_class=argparse.RawDescriptionHelpFormatter,
        **more,
    )
    made.add_argument("--version", action="version", version=f"speedlight {VERSION}")
    return made


class Refused(Exception):
    """An input that the program refuses, told in a line."""


def main(name, body):
    """Runs the body, and turns what it can't do into one line and status 1, a refused input into status 3."""

    def run():
        try:
            return body()
        except Refusal as refusal:
            said = f"the program refuses this input: {refusal}; {tool('explain')} says more"
            raise Refused(said) from None

    known = [(Refused, 3), ((Trouble, NoProgram, NoReport), 1)]
    called = needs.called()
    sys.exit(streams.guard(called if called.startswith("speedlight-") else name, run, known))
