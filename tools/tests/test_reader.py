"""The reader of inputs, reports and traces, and the way to the program."""

import datetime
import subprocess
import tempfile
import unittest
from pathlib import Path

from shared import EXAMPLES, TOP, accepted

from speedlight_tools import program
from speedlight_tools.inputs import Refusal, check, parse, read_input, text_of
from speedlight_tools.nets import net_fault
from speedlight_tools.positions import positions
from speedlight_tools.replay import replay
from speedlight_tools.reports import NoReport, read_report

DOCUMENT = '''# a comment
device = [{name = "a", ports = 2}, # one
  {name = 'b', ports = 3}]
[snapshot]
bits = 2
[[loss.drop]]
link = "in a.0 init"
[[loss.drop]]
link = """x"""
n = 2
'''
REPORT = """speedlight 1
network devices 1 units 2 hosts 1
observer count 5 issued 4 collected 3 resent 1
snapshot 1 consistent
in a.0 1 100
out a.0 2 200 x0 3 300
snapshot 2 inconsistent in a.0 skipped to 3
snapshot 3 inconsistent out a.0 miscredited by 4
snapshot 4 pending out a.0 x0 3
snapshot 5 not issued in a.0 3
host h0 sent 4 delivered 5
drops bad 1 expired 2 noroute 3
lost cable 4 crossbar 5 init 6 notice 7
end
"""


class Inputs(unittest.TestCase):
    def test_the_examples(self):
        self.assertGreaterEqual(len(accepted()), 10)
        for path in accepted():
            self.assertGreater(len(read_input(path).net.units), 0)
        with self.assertRaises(Refusal):
            read_input(EXAMPLES / "refused.toml")

    def test_text_of_a_document(self):
        for path in accepted():
            doc = parse(path.read_bytes())
            self.assertEqual(parse(text_of(doc).encode()), doc)

    def test_toml_of_version_1_1(self):
        # Tables in braces over several lines, a comma after the last key, the escapes \\e and \\x, times without seconds.
        text = "a = { # }\n  \"k\\x61\" = [1,\n 2,], # c\n  t = 07:32,\n}\nb = \"\\e\"\nc = '''{\n,}'''\n"
        doc = parse(text.encode())
        self.assertEqual(doc, {"a": {"ka": [1, 2], "t": datetime.time(7, 32)}, "b": "\x1b", "c": "{\n,}"})
        self.assertEqual(positions(text)[0]["a", "t"], (4, 3))
        wrong = {
            "a = {,}": (1, 6),
            "a = {x = 1,,}": (1, 12),
            "a = {x\n= 1}": (1, 7),
            "a = {x =\n 1}": (1, 9),
            "a = {\n x = 1\n y = 2\n}": (3, 2),
            "a = {\n x = 1,\n y = \n}": (3, 6),
            "a = {\n x = 1": (2, 7),
        }
        for text, place in wrong.items():
            with self.assertRaises(Refusal, msg=text) as caught:
                parse(text.encode())
            self.assertEqual((caught.exception.kind, caught.exception.place), ("I2", place), text)

    def test_marks_and_depths(self):
        self.assertEqual(parse(b"\xef\xbb\xbfa = 1\n"), {"a": 1})
        for deep in ("a = " + "[" * 80 + "]" * 80, ".".join("k" * 80) + " = 1", "[" + ".".join("k" * 80) + "]"):
            parse(deep.encode())
        for deep in ("a = " + "[" * 81 + "]" * 81, "a = " + "{a = " * 81 + "1" + "}" * 81, ".".join("k" * 81) + " = 1"):
            with self.assertRaises(Refusal):
                parse(deep.encode())
        for text in ("a = 9223372036854775808", "a = -9223372036854775809", "a = 1e400"):
            with self.assertRaises(Refusal):
                parse(text.encode())
        parse(b"a = [9223372036854775807, -9223372036854775808, inf, nan]")

    def test_order_of_links(self):
        net = read_input(EXAMPLES / "three_packets.toml").net
        self.assertEqual(len(net.links), 24)
        self.assertEqual(
            list(net.links)[9:16],
            [
                "control a dump:out.1",
                "in a.0 host",
                "in a.0 init",
                "in a.0 poll",
                "out a.0 x0",
                "out a.0 x1",
                "out a.0 poll",
            ],
        )
        self.assertEqual(
            net.actors, ["observer", "control a", "in a.0", "out a.0", "in a.1", "out a.1", "host h0", "host h1"]
        )

    def test_ways(self):
        net = read_input(EXAMPLES / "leaf_spine.toml").net
        self.assertEqual([net.next_port(d, "h1") for d in ("s0", "s1", "l0", "l1")], [1, 1, 1, 0])

    def test_a_sound_net_has_no_fault(self):
        self.assertIsNone(net_fault(parse((EXAMPLES / "leaf_spine.toml").read_bytes())))

    def test_positions(self):
        keys, values = positions(DOCUMENT)
        self.assertEqual(values["device", 1, "ports"], (3, 24))
        self.assertEqual(keys["device", 0, "ports"], (2, 24))
        self.assertEqual(values["snapshot", "bits"], (5, 8))
        self.assertEqual(values["loss", "drop", 1, "n"], (10, 5))
        self.assertEqual(positions(DOCUMENT.replace("\n", "\r\n")), (keys, values))


class Reports(unittest.TestCase):
    def test_each_line(self):
        report = read_report(REPORT)
        self.assertEqual(
            [s.verdict for s in report.snapshots], ["consistent", "skipped", "miscredited", "pending", "not issued"]
        )
        self.assertEqual(report.snapshots[0].of("out a.0").channels, {"x0": (3, 300)})
        self.assertEqual(
            (report.snapshots[3].unit, report.snapshots[3].channel, report.snapshots[3].other), ("out a.0", "x0", 3)
        )
        self.assertEqual((report.issued, report.collected, report.resent), (4, 3, 1))
        self.assertEqual(report.host_counts, {"h0": (4, 5)})
        self.assertEqual((report.drops["noroute"], report.lost["notice"]), (3, 7))
        self.assertIsNone(report.trace)

    def test_a_trace_below(self):
        self.assertEqual(read_report(REPORT + "trace 2\na\nb\n").trace, ["a", "b"])

    def test_what_is_no_report(self):
        lines = REPORT.splitlines(keepends=True)
        wrong = [
            REPORT[:200],
            "",
            "speedlight 2\n",
            REPORT + "x\n",
            REPORT + "trace 2\na\n",
            REPORT + "trace 1\na\nb\n",
        ]
        wrong += ["".join(lines[:i] + lines[i + 1 :]) for i in range(len(lines)) if not lines[i].startswith("host")]
        wrong += [
            REPORT.replace("skipped to", "skipped"),
            REPORT.replace("x0 3 300", "x0 3"),
            REPORT.replace("sent 4", "sent -4"),
        ]
        for text in wrong:
            with self.assertRaises(NoReport, msg=text):
                read_report(text)


class Turns(unittest.TestCase):
    def test_the_turns_show_what_the_report_says(self):
        found = program.compiled()
        if found is None:
            self.skipTest("no compiled program")
        for path in accepted():
            done = subprocess.run([found, "step", "--trace"], input=path.read_bytes(), capture_output=True)
            source, report = check(parse(path.read_bytes())), read_report(done.stdout.decode())
            world = replay(source, report.trace)
            for snapshot in report.snapshots:
                if snapshot.verdict != "not issued":
                    self.assertEqual(world.verdict(snapshot.number).line, snapshot.line, path.name)
            lost = {sort: sum(m.lost and m.link.sort == sort for m in world.messages) for sort in report.lost}
            self.assertEqual(lost, report.lost, path.name)


class Program(unittest.TestCase):
    def test_finding(self):
        with tempfile.TemporaryDirectory() as folder:
            path = Path(folder) / "speedlight"
            path.write_text("#!/bin/sh\necho out; echo 'speedlight: I2' >&2; exit 3\n")
            path.chmod(0o755)
            self.assertEqual(program.find(str(path)), str(path))
            status, out, err = program.run(str(path), [])
            self.assertEqual((status, out, program.refusal_line(err)), (3, b"out\n", "speedlight: I2"))
        with self.assertRaises(program.NoProgram):
            program.find(folder + "/speedlight")
        self.assertTrue(program.find().startswith("/"))
        self.assertTrue((TOP / "crates" / "speedlight").is_dir())


if __name__ == "__main__":
    unittest.main()
