"""What bin/install puts works outside a clone, and so does the Python package, which pip makes without a network."""

import os
import subprocess
import sys
import tempfile
import tomllib
import unittest
import venv
from pathlib import Path

from shared import DATA, EXAMPLES, TOOLS, TOP

from speedlight_tools import needs

NAMES = sorted(path.name for path in TOOLS.iterdir() if path.is_file() and os.access(path, os.X_OK) and path.name != "setup")
# One call of each tool that needs no library, and how its answer begins.
CALLS = {
    "explain": ([EXAMPLES / "refused.toml"], 3, "speedlight: I7 flow.0.to\n"),
    "diagram": ([EXAMPLES / "two_in_flight.toml", TOP / "docs" / "two_in_flight.trace"], 0, "<svg "),
    "report": (["csv", DATA / "lossy_net.report"], 0, "snapshot,verdict,unit,"),
    "frame": (["make", "plain", "--src", "0", "--dst", "1", "--len", "100", "--hops", "8"], 0, "000000000000000100000000006408"),
}
# The example of docs/TOOLS.md, which a notebook may run.
EXAMPLE = (TOP / "docs" / "TOOLS.md").read_text().split("```python\n")[1].split("```")[0]


class Installed(unittest.TestCase):
    def setUp(self):
        holder = tempfile.TemporaryDirectory()
        self.addCleanup(holder.cleanup)
        self.folder = Path(holder.name)

    def call(self, *words, data=""):
        environment = {**os.environ, "PATH": f"/usr/bin{os.pathsep}{os.environ['PATH']}"}
        environment.pop("PYTHONPATH", None)
        done = subprocess.run(
            [*map(str, words)], input=data, capture_output=True, text=True, cwd=self.folder, env=environment
        )
        return done.returncode, done.stdout, done.stderr

    def each_tool(self, folder):
        for name, (words, wanted, begins) in CALLS.items():
            status, out, err = self.call(folder / f"speedlight-{name}", *words)
            self.assertEqual((status, err), (wanted, ""), name)
            self.assertTrue(out.startswith(begins), out[:80])
        for name in NAMES:
            status, out, _ = self.call(folder / f"speedlight-{name}", "--help")
            self.assertEqual((status, out[: len(f"usage: speedlight-{name}")]), (0, f"usage: speedlight-{name}"))
            self.assertNotIn(f"tools/{name}", out)
            version = f"speedlight {(TOP / 'VERSION').read_text()}"
            self.assertEqual(self.call(folder / f"speedlight-{name}", "--version"), (0, version, ""))
        status, out, err = self.call(folder / "speedlight-report", "json", "nothing")
        self.assertEqual((status, out), (1, ""))
        self.assertTrue(err.startswith("speedlight-report: nothing: "), err)

    def test_what_bin_install_puts(self):
        if subprocess.run([TOP / "bin" / "built"], capture_output=True).returncode:
            self.skipTest("no program is built of these sources")
        prefix = self.folder / "a prefix"
        told = subprocess.run([TOP / "bin" / "install", prefix], capture_output=True, text=True)
        self.assertEqual((told.returncode, told.stderr), (0, ""))
        self.each_tool(prefix / "bin")
        for name in NAMES:
            for path in (
                f"share/man/man1/speedlight-{name}.1",
                f"share/bash-completion/completions/speedlight-{name}",
                f"share/fish/vendor_completions.d/speedlight-{name}.fish",
            ):
                self.assertTrue((prefix / path).stat().st_size, path)
            for file in ("_speedlight-tools", "speedlight-tools.bash", "speedlight-tools.fish"):
                self.assertIn(name, (TOP / "docs" / "completions" / file).read_text())
        # The program beside it is asked, and a library is found in another Python.
        status, out, _ = self.call(prefix / "bin" / "speedlight-explain", EXAMPLES / "three_packets.toml")
        self.assertEqual((status, out.splitlines()[0]), (0, "the program accepts this input"))
        if needs.python_with("networkx", "graphviz"):
            status, out, _ = self.call(prefix / "bin" / "speedlight-topology", "line")
            self.assertEqual(status, 0)
        if needs.python_with("snakemake", "matplotlib"):
            plan = self.folder / "plan.toml"
            plan.write_text('topology = "line"\n[grid]\nseed = "1-2"\n')
            status, _, err = self.call(prefix / "bin" / "speedlight-study", plan, "--out", self.folder / "study")
            self.assertEqual(status, 0, err)

    def test_the_python_package(self):
        venv.create(self.folder / "venv", with_pip=True)
        pip = [self.folder / "venv" / "bin" / "pip", "install", "--no-index", "--disable-pip-version-check"]
        status, _, err = self.call(*pip, TOOLS)
        self.assertEqual((status, err), (0, ""))
        self.each_tool(self.folder / "venv" / "bin")
        status, out, err = self.call(self.folder / "venv" / "bin" / "speedlight-report", "counts", DATA / "lossy_net.report")
        self.assertEqual((status, err.count("\n")), (1, 1))
        self.assertIn("pip install matplotlib", err)
        for name in ("two_in_flight.toml", "two_in_flight.trace"):
            (self.folder / name).write_bytes(((EXAMPLES if name.endswith("toml") else TOP / "docs") / name).read_bytes())
        status, out, err = self.call(self.folder / "venv" / "bin" / "python", "-c", EXAMPLE)
        self.assertEqual((status, err), (0, ""))
        self.assertIn(f"```text\n{out}```", (TOP / "docs" / "TOOLS.md").read_text())
        self.assertEqual([path.name for path in TOOLS.iterdir() if path.name in ("build", "speedlight_tools.egg-info")], [])

    def test_each_tool_has_a_command(self):
        project = tomllib.loads((TOOLS / "pyproject.toml").read_text())["project"]
        self.assertEqual(sorted(project["scripts"]), [f"speedlight-{name}" for name in NAMES])


if __name__ == "__main__":
    unittest.main()
