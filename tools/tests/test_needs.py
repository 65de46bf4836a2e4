"""Each tool as it is, on machines where a library lacks, where a shim stands before Python, and where Python is too old.

A script stands for `python3` on the path. What it hides is hidden in it alone, so that another Python that is started
has what it has.
"""

import os
import subprocess
import sys
import tempfile
import unittest
from concurrent.futures import ThreadPoolExecutor
from pathlib import Path

from shared import DATA, EXAMPLES, TOOLS, TOP

from speedlight_tools import needs

# How each tool is called, and the library that it can't go on without.
CALLS = {
    "explain": (["explain", EXAMPLES / "three_packets.toml"], None),
    "diagram": (["diagram", EXAMPLES / "two_in_flight.toml", TOP / "docs" / "two_in_flight.trace"], None),
    "frame": (["frame", "read", "000000000000000100000000006408010000000000000000"], None),
    "frame pcap": (["frame", "pcap", EXAMPLES / "two_in_flight.toml", TOP / "docs" / "two_in_flight.trace"], "dpkt"),
    "report json": (["report", "json", DATA / "lossy_net.report"], None),
    "report csv": (["report", "csv", DATA / "lossy_net.report"], None),
    "report balance": (["report", "balance", DATA / "lossy_net.report", "--input", DATA / "lossy_net.toml"], None),
    "report counts": (["report", "counts", DATA / "lossy_net.report"], "matplotlib"),
    "report flight": (["report", "flight", DATA / "lossy_net.report"], "matplotlib"),
    "report verdicts": (["report", "verdicts", DATA / "lossy_net.report"], "matplotlib"),
    "report values": (["report", "values", DATA / "lossy_net.values"], None),
    "report poll": (["report", "poll", DATA / "lossy_net.poll"], None),
    "topology line": (["topology", "line"], "networkx"),
    "topology draw": (["topology", "draw", EXAMPLES / "three_packets.toml"], "networkx"),
    "view": (["view", EXAMPLES / "two_in_flight.toml", TOP / "docs" / "two_in_flight.trace"], "networkx"),
    "study": (["study", TOOLS / "plans" / "lossy_leaf_spine.toml", "--dry-run"], "snakemake"),
}
# Seconds after which a call is said to run for ever: other work beside may make it wait.
PATIENCE = 300
# Python as a script would start it: with modules that can't be imported, and with another version.
START = """import runpy, sys
for name in {hidden!r}: sys.modules[name] = None
if {old}: sys.version_info = (3, 9, 2, "final", 0)
words = sys.argv[1:]
if words[:1] == ["-c"]:
    sys.argv = words[:1] + words[2:]
    exec(words[1])
else:
    sys.argv = words
    sys.path[0] = __import__("os").path.dirname(__import__("os").path.realpath(words[0]))
    runpy.run_path(words[0], run_name="__main__")
"""
LIBRARIES = ["matplotlib", "networkx", "graphviz", "snakemake", "jsonschema", "dpkt"]


class Needs(unittest.TestCase):
    def setUp(self):
        folder = tempfile.TemporaryDirectory()
        self.addCleanup(folder.cleanup)
        self.folder = Path(folder.name)

    def shim(self, name, hidden=(), old=False):
        """A folder with a `python3` that hides modules."""
        folder = self.folder / name
        folder.mkdir()
        start = folder / "start.py"
        start.write_text(START.format(hidden=list(hidden), old=old))
        path = folder / "python3"
        path.write_text(f'#!/bin/bash\nexec {sys.executable} {start} "$@"\n')
        path.chmod(0o755)
        return folder

    def call(self, words, folders, alone):
        """Status, output and errors; `alone`: the Pythons of the folders are all that there are."""
        environment = {**os.environ, "PATH": os.pathsep.join([*map(str, folders), os.environ["PATH"]])}
        if alone:
            environment[needs.MARK] = os.pathsep.join(p for p in needs.pythons())
        done = subprocess.run(
            [str(TOOLS / words[0]), *map(str, words[1:])], capture_output=True, env=environment, timeout=PATIENCE, input=b""
        )
        # A capture is no text.
        return done.returncode, done.stdout.decode(errors="replace"), done.stderr.decode()

    def each(self, folders, alone):
        with ThreadPoolExecutor(4) as pool:
            calls = [(name, library, pool.submit(self.call, words, folders, alone)) for name, (words, library) in CALLS.items()]
        for name, library, told in calls:
            with self.subTest(name):
                yield name, library, told.result()

    def test_no_library_anywhere(self):
        folder = self.shim("bare", LIBRARIES)
        for name, library, (status, out, err) in self.each([folder], True):
            if library is None:
                self.assertEqual((status, err), (0, ""), name)
            else:
                self.assertEqual((status, out, err.count("\n")), (1, "", 1), name)
                self.assertIn(f"tools/{name.split(' ')[0]}: needs {library}", err)
                self.assertIn("tools/setup", err)

    def test_a_shim_without_libraries_first(self):
        folder = self.shim("shim", LIBRARIES)
        for name, library, (status, out, err) in self.each([folder], False):
            if library is None or needs.python_with(*needs_of(library)) is not None:
                self.assertEqual(status, 0, (name, err))
            else:
                self.assertEqual((status, out, err.count("\n")), (1, "", 1), name)

    def test_two_shims_of_which_each_has_half(self):
        first, second = self.shim("first", ["matplotlib", "snakemake"]), self.shim("second", ["networkx", "graphviz"])
        for name, library, (status, _, err) in self.each([first, second], True):
            if library is None:
                self.assertEqual((status, err), (0, ""), name)
            elif status:
                self.assertEqual((status, err.count("\n")), (1, 1), name)

    def test_a_python_that_is_too_old_first(self):
        folder = self.shim("old", [*LIBRARIES, "tomllib"], old=True)
        for name, library, (status, _, err) in self.each([folder], False):
            if library is None or needs.python_with(*needs_of(library)) is not None:
                self.assertEqual(status, 0, (name, err))
            else:
                self.assertEqual((status, err.count("\n")), (1, 1), name)

    def test_no_python_that_is_new_enough(self):
        folder = self.shim("old", [*LIBRARIES, "tomllib"], old=True)
        for name, _, told in self.each([folder], True):
            tool = name.split(" ")[0]
            self.assertEqual(told, (1, "", f"tools/{tool}: needs Python 3.11 or later, and found none\n"))

    def test_a_python_that_does_not_run(self):
        folder = self.folder / "broken"
        folder.mkdir()
        (folder / "python3").write_text("#!/nowhere\n")
        (folder / "python3").chmod(0o755)
        good = self.shim("good", LIBRARIES)
        for name, library, (status, _, err) in self.each([good, folder], True):
            self.assertEqual((status, err.count("\n")), (0, 0) if library is None else (1, 1), (name, err))

    def test_each_tool_is_tried(self):
        tools = {path.name for path in TOOLS.iterdir() if path.is_file() and os.access(path, os.X_OK)} - {"setup"}
        self.assertLessEqual(tools, {name.split(" ")[0] for name in CALLS})


def needs_of(library):
    return next(group for group in needs.GROUPS if library in group)


if __name__ == "__main__":
    unittest.main()
