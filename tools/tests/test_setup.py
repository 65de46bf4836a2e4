"""The libraries are found in whichever Python has them, and a tool that lacks one says which."""

import os
import subprocess
import sys
import tempfile
import unittest
from pathlib import Path

from shared import TOOLS, run

from speedlight_tools import needs


def with_need(name, **environment):
    """What a script that needs the library says, and its status."""
    with tempfile.TemporaryDirectory() as folder:
        script = Path(folder) / "example"
        script.write_text(f"from speedlight_tools import needs\nneeds.need('{name}')\nprint('there')\n")
        environment = {**os.environ, "PYTHONPATH": str(TOOLS), **environment}
        return subprocess.run([sys.executable, str(script)], env=environment, capture_output=True, text=True)


class Setup(unittest.TestCase):
    def test_what_is_there(self):
        self.assertTrue(needs.python_with("json"))
        self.assertEqual(with_need("json").stdout, "there\n")

    def test_what_is_lacking(self):
        done = with_need("no_such_library")
        self.assertEqual((done.returncode, done.stdout), (1, ""))
        self.assertIn("tools/example: needs no_such_library, which no Python here has", done.stderr)
        self.assertEqual(done.stderr.count("\n"), 1)

    def test_how_to_get_it(self):
        told = needs.how_to_get(["networkx", "graphviz"])
        self.assertEqual(told, "run tools/setup, or: apt-get install python3-networkx python3-graphviz graphviz")

    def test_goes_on_in_another_python(self):
        with tempfile.TemporaryDirectory() as folder:
            library = Path(folder) / "library"
            library.mkdir()
            (library / "only_there.py").write_text("")
            python = Path(folder) / "python3"
            python.write_text(f'#!/bin/bash\nPYTHONPATH={library}:{TOOLS} exec "{sys.executable}" "$@"\n')
            python.chmod(0o755)
            script = Path(folder) / "script"
            script.write_text(
                "from speedlight_tools import needs\nneeds.need('only_there')\nimport only_there\nprint('there')\n"
            )
            environment = {**os.environ, "PYTHONPATH": str(TOOLS), "PATH": f"{os.environ['PATH']}:{folder}"}
            done = subprocess.run([sys.executable, str(script)], env=environment, capture_output=True, text=True)
            self.assertEqual((done.returncode, done.stdout, done.stderr), (0, "there\n", ""))

    def test_words(self):
        self.assertEqual(run("setup", "--help")[0], 0)
        self.assertEqual(run("setup", "nonsense")[0], 2)
        status, out, _ = run("setup", "--check")
        self.assertEqual(status == 0, out == "tools/setup: all is there\n")


if __name__ == "__main__":
    unittest.main()
