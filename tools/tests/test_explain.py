"""The table of mistakes: each is refused by the program as the table says, and explained as it says."""

import re
import subprocess
import tempfile
import unittest
from pathlib import Path

from shared import EXAMPLES, TOP, accepted, expand, mistakes, run

from speedlight_tools import program
from speedlight_tools.explaining import explain
from speedlight_tools.inputs import Refusal, check, parse, read_input
from speedlight_tools.mistakes import mistakes as all_mistakes
from speedlight_tools.sizes import turns_at_most


def refused(data):
    doc = None
    try:
        doc = parse(data)
        check(doc)
    except Refusal as refusal:
        return doc, refusal
    return doc, None


class Explaining(unittest.TestCase):
    def test_there_are_enough(self):
        self.assertGreaterEqual(len(mistakes()), 60)
        self.assertIn(f"has {len(mistakes())} mistakes", (TOP / "docs" / "TOOLS.md").read_text())
        self.assertEqual(len({m["name"] for m in mistakes()}), len(mistakes()))
        kinds = {m["says"].split(" ")[1] for m in mistakes()}
        self.assertEqual(kinds, {f"I{i}" for i in range(2, 13)})

    def test_each_is_explained(self):
        for mistake in mistakes():
            with self.subTest(mistake["name"]):
                data = expand(mistake["input"]).encode()
                doc, refusal = refused(data)
                self.assertIsNotNone(refusal)
                self.assertEqual(refusal.line, mistake["says"])
                self.assertEqual("\n".join(explain(data, doc, refusal)), mistake["adds"])

    def test_the_program_says_so(self):
        found = program.compiled()
        if found is None:
            self.skipTest("no compiled program")
        for mistake in mistakes():
            with self.subTest(mistake["name"]):
                done = subprocess.run([found, "routes"], input=expand(mistake["input"]).encode(), capture_output=True)
                self.assertEqual(done.stderr.decode().strip(), mistake["says"])
                self.assertEqual(done.returncode, 3)

    def test_as_a_command(self):
        status, out, _ = run("explain", EXAMPLES / "refused.toml")
        self.assertEqual(status, 3)
        self.assertTrue(out.startswith("speedlight: I7 flow.0.to\nline 3, column 28:\n"))
        self.assertIn("Did you mean `h1`?", out)
        status, out, _ = run("explain", EXAMPLES / "three_packets.toml")
        self.assertEqual(status, 0)
        self.assertIn("1 device, 4 units, 2 hosts, 3 packets", out)

    def test_the_turns_and_the_time_of_an_accepted_input(self):
        for path in accepted():
            source = read_input(path)
            status, out, _ = run("explain", path)
            self.assertEqual(status, 0)
            self.assertIn(f"at most {turns_at_most(source):,} turns", out)
            if program.compiled() is None:
                continue
            self.assertRegex(out, r"a run took (\d+\.\d\d|more than 5) seconds here")
            done = subprocess.run([program.compiled(), "step", "--trace"], input=path.read_bytes(), capture_output=True)
            turns = re.search(r"^trace (\d+)$", done.stdout.decode(), re.M)
            self.assertLessEqual(int(turns[1]), turns_at_most(source), path)
        # What the contract of the bound says of one switch with two hosts: 84, 4 for each packet, 49 for each sweep.
        first = 'device=[{name="a",ports=2}]\nhost=[{name="h0",at="a.0"},{name="h1",at="a.1"}]\n'
        first += "snapshot={bits=1,window=1,ring=1,count=1}\n"
        flow = 'flow=[{from="h0",to="h1",count=10,bytes=1,hops=1}]\n'
        sweeps = 'script={entries=["control a sweep","pass 3","control a sweep"]}\n'
        for more, bound in (("", 84), (flow, 124), (sweeps, 182)):
            self.assertEqual(turns_at_most(check(parse((first + more).encode()))), bound)

    def test_all_mistakes_at_once(self):
        text = (EXAMPLES / "three_packets.toml").read_text()
        for old, new in (("ports = 2", "ports = 9"), ('at = "a.1"', 'at = "b.1"'), ("count = 3", "count = 30000"), ("ring = 3", "rings = 3")):
            text = text.replace(old, new)
        status, out, _ = run("explain", "-", data=text)
        self.assertEqual(status, 3)
        first, _, more = out.partition("\n\n3 more mistakes:\n")
        self.assertTrue(first.startswith("speedlight: I4 snapshot\n"), first)
        self.assertIn("Did you mean `ring`", first)
        for kind in ("I6 flow.0.count 30000", "I9 N3 device.0", "I7 host.1.at"):
            self.assertIn(f": {kind}: ", more)
        self.assertTrue(all(line.startswith("line ") for line in more.strip().split("\n")[:3]), more)

    def test_the_first_of_all_mistakes_is_the_programs(self):
        for mistake in mistakes():
            data = expand(mistake["input"]).encode()
            doc, refusal = refused(data)
            if doc is not None and refusal is not None:
                self.assertEqual(all_mistakes(doc)[0].line, mistake["says"], mistake["name"])
        for path in accepted():
            self.assertEqual(all_mistakes(parse(path.read_bytes())), [])

    def test_a_line_that_is_none_of_the_program(self):
        for line, why in (
            ("nonsense", "no line of the program"),
            ("speedlight: I99 x", "no line of the program"),
            ("speedlight: I13", "no line of the program"),
            ("speedlight: usage: speedlight step", "no input was read"),
            ("speedlight: out of memory", "too little memory"),
            ("speedlight: 300 actors, at most 256", "`step` runs it"),
        ):
            status, out, err = run("explain", EXAMPLES / "three_packets.toml", "--refusal", line)
            self.assertEqual((status, out, err.count("\n")), (1, "", 1), line)
            self.assertIn(why, err)
        status, out, _ = run("explain", EXAMPLES / "three_packets.toml", "--refusal", "-", data="")
        self.assertEqual((status, out.split("\n")[0]), (0, "the program accepts this input"))

    def test_notes_on_what_is_accepted(self):
        text = (EXAMPLES / "two_switches.toml").read_text()
        self.assertNotIn("flow.0", run("explain", "-", data=text)[1])
        self.assertIn(
            "goes through 2 switches, and `hops` is 1",
            run("explain", "-", data=text.replace("hops = 8", "hops = 1"))[1],
        )
        apart = "".join(line + "\n" for line in text.splitlines() if not line.startswith(("cable", "script")))
        self.assertIn("no cables lead from `h0` to `h1`", run("explain", "-", data=apart)[1])
        self.assertIn("no snapshot is taken", run("explain", "-", data=text.replace("count = 2", "count = 0"))[1])

    def test_the_given_line_decides(self):
        name = EXAMPLES / "refused.toml"
        status, out, _ = run("explain", name, "--refusal", "-", data="speedlight: I7 flow.0.to\n")
        self.assertEqual(status, 3)
        self.assertIn("which isn't there", out)
        status, out, _ = run("explain", name, "--refusal", "speedlight: I2")
        self.assertEqual(status, 3)
        self.assertIn("reads the input otherwise", out)

    def test_the_example_of_the_documents(self):
        out = run("explain", EXAMPLES / "refused.toml", "--refusal", "speedlight: I7 flow.0.to")[1]
        self.assertTrue(f"```text\n{out}```" in (TOP / "docs" / "TOOLS.md").read_text())

    def test_the_mistakes_of_the_documents(self):
        text = (EXAMPLES / "refused.toml").read_text().replace("ports = 2", "ports = 9").replace("count = 3", "count = 30000")
        told = run("explain", "-", "--refusal", "speedlight: I6 flow.0.count 30000", data=text)[1].splitlines()[-3:]
        self.assertIn("```text\n" + "\n".join(told) + "\n```", (TOP / "docs" / "TOOLS.md").read_text())

    def test_errors_are_plain(self):
        for words in (["nothing.toml"], [str(EXAMPLES)], [EXAMPLES / "refused.toml", "--program", "/nothing"]):
            status, out, err = run("explain", *words)
            self.assertEqual((status, out, err.count("\n")), (1, "", 1))
        self.assertEqual(run("explain")[0], 2)
        self.assertEqual(run("explain", "--help")[0], 0)

    def test_bytes_that_are_no_text(self):
        with tempfile.TemporaryDirectory() as folder:
            path = Path(folder) / "x.toml"
            path.write_bytes(b"device = []\n# caf\xe9\n")
            status, out, _ = run("explain", path)
            self.assertEqual(status, 3)
            self.assertIn("speedlight: I2\nline 2, column 6:", out)
            path.write_bytes(b"#" * 1_048_577)
            self.assertIn("speedlight: I1\n", run("explain", path)[1])


if __name__ == "__main__":
    unittest.main()
