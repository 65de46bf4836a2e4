"""Starts the tools where they are installed as a Python package: a function for each, which pyproject.toml names."""

import functools
import runpy

from . import needs, program


def run(name):
    """Runs the file of the tool as it would run by itself. Its libraries are those of this Python."""
    needs.PACKAGE = f"speedlight-{name}"
    runpy.run_path(str(program.script(name)), run_name="__main__")


diagram = functools.partial(run, "diagram")
explain = functools.partial(run, "explain")
frame = functools.partial(run, "frame")
report = functools.partial(run, "report")
study = functools.partial(run, "study")
topology = functools.partial(run, "topology")
view = functools.partial(run, "view")
