"""What the companions of speedlight share: readers of inputs, reports and traces, and the way to the program."""

import os


def version():
    """The version: of the clone, or of what was installed."""
    here = os.path.dirname(os.path.abspath(__file__))
    for path in (os.path.join(here, "..", "..", "VERSION"), os.path.join(here, "VERSION")):
        if os.path.isfile(path):
            with open(path, encoding="utf-8") as file:
                return file.read().strip()
    from importlib import metadata

    return metadata.version("speedlight-tools")


VERSION = version()
