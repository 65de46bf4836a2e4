"""The drawings of the tour, what a drawing marks by the verdict, and what is refused."""

import re
import subprocess
import tempfile
import unittest
import xml.etree.ElementTree as tree
from pathlib import Path

from shared import DATA, EXAMPLES, TOP, accepted, run

from speedlight_tools import program
from speedlight_tools.inputs import read_input
from speedlight_tools.replay import replay
from speedlight_tools.reports import read_report
from speedlight_tools.stories import Stories

# The drawings in docs, with the options that they are drawn with.
DRAWINGS = {
    "two_in_flight": [],
    "lost_initiation": [],
    "too_late_packet": ["--no-control", "--turns", "1-34"],
    "dead_cable": ["--no-control", "--turns", "1-31"],
}
RAW = """device = [{name = "a", ports = 2}]
host = [{name = "h0", at = "a.0"}, {name = "h1", at = "a.1"}]
raw = [{from = "h0", hex = ""}, {from = "h0", hex = "000000000000000100000000006408010000000000000000"}]
snapshot = {bits = 2, window = 1, ring = 1, count = 1, retries = 0}
"""
RAW_TURNS = ["host h0 inject", "host h0 inject", "in a.0 host", "in a.0 host", "out a.1 x0", "host h1 net"]
START = [
    "observer issue",
    "control a begin",
    "in a.0 init",
    "in a.1 init",
    "out a.0 x0",
    "out a.0 x1",
    "out a.1 x0",
    "out a.1 x1",
]


def draw(name, *words):
    return run("diagram", EXAMPLES / f"{name}.toml", TOP / "docs" / f"{name}.trace", *words)


def trace(turns):
    return f"trace {len(turns)}\n" + "".join(f"{t}\n" for t in turns)


class Diagram(unittest.TestCase):
    def words(self, svg):
        return [e.text for e in tree.fromstring(svg).iter("{http://www.w3.org/2000/svg}text")]

    def test_the_drawings_of_the_tour(self):
        tour = (TOP / "docs" / "TOUR.md").read_text()
        for name, options in DRAWINGS.items():
            status, svg, err = draw(name, *options)
            self.assertEqual((status, err), (0, ""))
            self.assertEqual(svg, (TOP / "docs" / f"{name}.svg").read_text(), name)
            self.assertIn(f"]({name}.svg)", tour)
            report = (TOP / "docs" / f"{name}.trace").read_text().split("trace ")[0]
            self.assertIn(report, tour)

    def test_each_verdict_is_said_and_marked(self):
        marks = {
            "two_in_flight": ["snapshot 1 consistent", "cut 1", "2"],
            "lost_initiation": ["snapshot 1 inconsistent in a.0 skipped to 2", "no cut 1", "0 to 2"],
            "too_late_packet": ["snapshot 1 inconsistent out a.1 miscredited by 2", "no cut 1", "on to 2", "late, at 2"],
            "dead_cable": ["snapshot 1 pending in a.1 cable 0", "cut 1?", "cable 0", "lost where the snapshot waits"],
        }
        for name, wanted in marks.items():
            words = self.words(draw(name)[1])
            for word in wanted:
                self.assertIn(word, words, name)
            self.assertEqual("n" in words, name == "two_in_flight")

    def test_a_polled_reading(self):
        drawn = draw("two_in_flight", "--no-control", "--turns", "1-20", "--poll", "3", "3")[1]
        self.assertEqual(drawn, (TOP / "docs" / "two_in_flight_polled.svg").read_text())
        self.assertIn("](two_in_flight_polled.svg)", (TOP / "docs" / "TOUR.md").read_text())
        self.assertIn("broken reading", self.words(drawn))
        self.assertIn("whole reading", self.words(draw("two_in_flight", "--poll", "3", "2")[1]))
        self.assertIn("whole reading", self.words(draw("two_in_flight", "--poll", "0", "0")[1]))
        self.assertEqual(draw("two_in_flight", "--poll", "3", "-1")[0], 1)

    def test_the_other_snapshot_of_a_run(self):
        words = self.words(draw("too_late_packet", "--snapshot", "2")[1])
        self.assertIn("snapshot 2 consistent", words)
        self.assertIn("a packet in flight across cut 2: put before, taken after", words)

    def test_a_cut_that_is_not_there(self):
        for name, number, why in (
            ("two_in_flight", 9, "there is no snapshot 9"),
            ("two_in_flight", 0, "numbered from 1"),
            ("dead_cable", 2, "snapshot 2 not issued in a.1 0"),
        ):
            status, out, err = draw(name, "--snapshot", number)
            self.assertEqual((status, out), (1, ""))
            self.assertIn(why, err)

    def test_rows_and_columns(self):
        words = self.words(draw("two_in_flight", "--turns", "5-9")[1])
        self.assertIn("observer issue", words)
        self.assertNotIn("host h0 inject", words)
        self.assertIn("cut 1", words)
        self.assertIn("cut 1, later", self.words(draw("two_in_flight", "--turns", "1-4")[1]))
        self.assertIn("cut 1, earlier", self.words(draw("two_in_flight", "--turns", "20-30")[1]))
        words = self.words(draw("two_in_flight", "--actors", "h0,in a.0,a.1")[1])
        self.assertEqual(
            [w for w in words if w in ("host h0", "in a.0", "out a.1", "in a.1", "out a.0", "observer")],
            ["host h0", "in a.0", "out a.1", "in a.1"],
        )
        words = self.words(draw("two_in_flight", "--no-control")[1])
        self.assertNotIn("control a", words)
        self.assertNotIn("observer issue", words)
        for options in (["--turns", "9-5"], ["--turns", "x"], ["--turns", "99-100"], ["--actors", "zz"]):
            status, out, err = draw("two_in_flight", *options)
            self.assertEqual((status, out, err.count("\n")), (1, "", 1))

    def test_by_default_the_turns_of_the_cut(self):
        svg = run("diagram", DATA / "long.toml", DATA / "long.trace", "--snapshot", "2")[1]
        words = self.words(svg)
        shown = next(w for w in words if w.startswith("turns "))
        self.assertRegex(shown, r"turns \d+ to \d+ of 218")
        self.assertLess(len(svg), len(run("diagram", DATA / "long.toml", DATA / "long.trace", "--turns", "all")[1]))
        self.assertIn("cut 2", words)
        self.assertNotIn("cut 2, later", words)
        self.assertFalse([w for w in self.words(draw("two_in_flight")[1]) if w.startswith("turns ")])

    def test_what_is_involved(self):
        for name, wanted in (("too_late_packet", ["in a.0", "in a.1", "out a.1"]), ("lost_initiation", ["control a", "in a.0", "out a.0"])):
            words = self.words(draw(name, "--involved")[1])
            actors = [w for w in words if re.fullmatch(r"observer|control a|host h\d|(in|out) a\.\d", w)]
            self.assertEqual(sorted(set(actors)), wanted, name)
        status, svg, err = draw("too_late_packet", "--involved")
        self.assertEqual((status, err), (0, ""))
        self.assertIn("late, at 2", self.words(svg))
        status, out, err = draw("two_in_flight", "--involved")
        self.assertEqual((status, out, err.count("\n")), (1, "", 1))
        self.assertIn("leave out --involved", err)
        for words in (["--turns", "1-9"], ["--actors", "a"]):
            self.assertEqual(draw("too_late_packet", "--involved", *words)[0], 2)

    def test_a_failed_cut_of_many_turns(self):
        found = program.compiled()
        if found is None:
            self.skipTest("no compiled program")
        shape = ["leaf-spine", "--hosts", "2", "--count", "40", "--snapshots", "7", "--every", "3", "--bits", "3", "--window", "3"]
        status, text, err = run("topology", *shape, "--loss-cable", "20", "--loss-init", "60", "--seed", "3")
        if status:
            self.skipTest(err.strip())
        with tempfile.TemporaryDirectory() as folder:
            path = Path(folder) / "net.toml"
            path.write_text(text)
            told = subprocess.run([found, "step", "--trace"], input=text.encode(), capture_output=True).stdout.decode()
            world = replay(read_input(path), read_report(told).trace)
            failed = [k for k in range(1, world.issued + 1) if world.verdict(k).verdict != "consistent"]
            wide = {k: world.cut_turns(k)[1] - world.cut_turns(k)[0] for k in failed}
            number = max(wide, key=wide.get)
            self.assertGreater(wide[number], 150)
            drawn = run("diagram", path, "--snapshot", number, data=told)
            self.assertEqual((drawn[0], drawn[2].count("\n")), (0, 1), drawn[2])
            self.assertIn(f"drawn is what snapshot {number} tells of (--involved)", drawn[2])
            self.assertEqual(drawn[1], run("diagram", path, "--snapshot", number, "--involved", data=told)[1])
            first, last = world.cut_turns(number)
            whole = run("diagram", path, "--snapshot", number, "--turns", f"{first + 1}-{last + 1}", data=told)
            self.assertEqual(whole[0], 0, whole[2])
            self.assertLess(drawn[1].count("<line"), whole[1].count("<line") / 5)
            # What lies between the turns that it tells of is left out, and said.
            turns = [int(w) for w in self.words(drawn[1]) if w.isdecimal()]
            self.assertTrue([w for w in self.words(drawn[1]) if re.fullmatch("\u22ee \\d+ turns left out", w)])
            told = Stories(world, read_input(path), [world.verdict(number)]).steps(world.verdict(number))
            self.assertTrue({step.place + 1 for step in told if step.message is not None} <= set(turns))
            self.assertEqual(turns, sorted(turns))

    def test_which_turns_the_cut_needs(self):
        for words in (["--turns", "x"], ["--turns", "999-1000"]):
            status, out, err = run("diagram", DATA / "long.toml", DATA / "long.trace", *words)
            self.assertEqual((status, out, err.count("\n")), (1, "", 1))
            self.assertRegex(err, r"cut 1 is at turns \d+ to \d+")
        status, out, err = run("diagram", DATA / "long.toml", DATA / "long.trace", "--turns", "1-3")
        self.assertEqual((status, err.count("\n")), (0, 1))
        self.assertRegex(err, r"cut 1 is at turns \d+ to \d+, and not all of these are drawn")

    def test_names_and_legend_on_each_screenful(self):
        words = self.words(run("diagram", DATA / "long.toml", DATA / "long.trace", "--turns", "all")[1])
        screens = -(-218 // 44)
        self.assertEqual([words.count(w) for w in ("in a.0", "observer", "a Begin, an initiation or a probe")], [screens] * 3)
        self.assertEqual(self.words(draw("two_in_flight")[1]).count("observer"), 1)

    def test_a_cap_on_columns(self):
        wide = "device = [" + ", ".join(f'{{name = "s{i}", ports = 8}}' for i in range(12)) + "]\ncable = ["
        wide += ", ".join(f'{{a = "s{i}.{p}", b = "s{i}.{p + 1}"}}' for i in range(12) for p in (0, 2, 4, 6)) + "]\n"
        wide += "snapshot = {bits = 1, window = 1, ring = 1, count = 1}\n"
        with tempfile.TemporaryDirectory() as folder:
            path = Path(folder) / "wide.toml"
            path.write_text(wide)
            status, out, err = run("diagram", path, data=trace(["observer issue", "control s0 begin"]))
            self.assertEqual((status, out, err.count("\n")), (1, "", 1))
            self.assertIn("would have 205 columns, and at most 64 are drawn", err)
            words = err.split("such as ")[1].split()
            self.assertEqual(run("diagram", path, *words, data=trace(["observer issue", "control s0 begin", "in s0.0 init"]))[0], 0)

    def test_hover_titles(self):
        titles = [e.text for e in tree.fromstring(draw("two_in_flight")[1]).iter("{http://www.w3.org/2000/svg}title")]
        data = [t for t in titles if t.startswith("a data packet on out a.1 x0, from in a.0, id 0, to h1, 100 bytes, 7 hops left; put at turn ")]
        self.assertTrue(data and all(", taken at turn " in t for t in data), titles)
        self.assertTrue([t for t in titles if t.startswith("turn ") and "id 0 to 1, counted 2 packets, 200 bytes by now" in t])

    def test_lost_messages_say_what_and_whither(self):
        words = self.words(draw("dead_cable")[1])
        self.assertIn("probe to in a.1", words)
        titles = [e.text for e in tree.fromstring(draw("dead_cable")[1]).iter("{http://www.w3.org/2000/svg}title")]
        self.assertTrue([t for t in titles if t.endswith(", lost")])

    def test_a_changed_count_is_told(self):
        text = (TOP / "docs" / "two_in_flight.trace").read_text()
        for old, new in (("in a.0 2 200", "in a.0 3 200"), ("in a.0 2 200", "in a.0 2 300"), ("x0 2 200", "x0 1 100"), ("x0 2 200", "x1 2 200")):
            status, out, err = run("diagram", EXAMPLES / "two_in_flight.toml", data=text.replace(old, new, 1))
            self.assertEqual((status, out, err.count("\n")), (1, "", 1))
            self.assertIn("where the turns show", err)

    def test_the_counts_of_each_example(self):
        found = program.compiled()
        if found is None:
            self.skipTest("no compiled program")
        for path in accepted():
            done = subprocess.run([found, "step", "--trace"], input=path.read_bytes(), capture_output=True)
            report = read_report(done.stdout.decode())
            world = replay(read_input(path), report.trace)
            for snapshot in report.consistent()[:5]:
                self.assertEqual(world.counts(snapshot.number), snapshot.counts, (path, snapshot.number))

    def test_raw_frames(self):
        with tempfile.TemporaryDirectory() as folder:
            path = Path(folder) / "raw.toml"
            path.write_text(RAW)
            status, svg, err = run("diagram", path, data=trace(RAW_TURNS + START))
            self.assertEqual((status, err), (0, ""))
            self.assertIn("a data packet or other bytes of a host, from its put to its take", self.words(svg))
            self.assertIn("1", self.words(svg))

    def test_a_trace_alone(self):
        text = (TOP / "docs" / "two_in_flight.trace").read_text()
        alone = text[text.index("trace ") :]
        self.assertEqual(run("diagram", EXAMPLES / "two_in_flight.toml", data=alone)[1], draw("two_in_flight")[1])

    def test_what_does_not_fit(self):
        trace_of = lambda name: TOP / "docs" / f"{name}.trace"
        cases = [
            ([EXAMPLES / "refused.toml", trace_of("dead_cable")], 3, "I7 flow.0.to"),
            ([EXAMPLES / "nothing.toml", trace_of("dead_cable")], 1, "No such file"),
            ([EXAMPLES / "dead_cable.toml", TOP / "nothing.trace"], 1, "No such file"),
            ([EXAMPLES / "dead_cable.toml", EXAMPLES / "dead_cable.toml"], 1, "neither a report"),
            ([EXAMPLES / "one_port.toml", trace_of("dead_cable")], 1, "the trace is not one of this input"),
            ([EXAMPLES / "dead_cable.toml", TOP / "docs"], 1, "directory"),
        ]
        for words, wanted, why in cases:
            status, out, err = run("diagram", *words)
            self.assertEqual((status, out, err.count("\n")), (wanted, "", 1), err)
            self.assertIn(why, err)
        report = trace_of("two_in_flight").read_text().split("trace ")[0]
        self.assertIn("without a trace", run("diagram", EXAMPLES / "two_in_flight.toml", data=report)[2])
        wrong = trace_of("lost_initiation").read_text().replace("skipped to 2", "skipped to 3")
        self.assertIn("where the turns show", run("diagram", EXAMPLES / "lost_initiation.toml", data=wrong)[2])


if __name__ == "__main__":
    unittest.main()
