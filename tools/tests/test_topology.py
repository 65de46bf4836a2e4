"""Nets of each shape are inputs that the program takes, and pictures show what a report says."""

import subprocess
import unittest
import xml.etree.ElementTree as tree

from shared import DATA, EXAMPLES, TOP, accepted, run

from speedlight_tools import needs, program
from speedlight_tools.inputs import check, parse, read_input

HAS_LIBRARIES = needs.python_with("networkx", "graphviz") is not None
LOSSY_NET = "leaf-spine --hosts 2 --count 40 --snapshots 12 --every 3 --bits 3 --window 3 --loss-cable 20 --loss-init 60 --seed 3"


def made(*words):
    status, out, err = run("topology", *words)
    if status:
        raise AssertionError(err)
    return check(parse(out.encode()))


@unittest.skipUnless(HAS_LIBRARIES, "no networkx or no graphviz")
class Shapes(unittest.TestCase):
    def sizes(self, *words):
        net = made(*words).net
        return len(net.devices), len(net.cables), len(net.hosts)

    def test_sizes(self):
        self.assertEqual(self.sizes("line", "--switches", 5), (5, 4, 5))
        self.assertEqual(self.sizes("ring", "--switches", 5, "--hosts", 2), (5, 5, 10))
        self.assertEqual(self.sizes("star", "--switches", 5), (5, 4, 4))
        self.assertEqual(self.sizes("leaf-spine", "--leaves", 4, "--spines", 3, "--hosts", 2), (7, 12, 8))
        self.assertEqual(self.sizes("fat-tree"), (20, 32, 16))
        self.assertEqual(self.sizes("fat-tree", "--arity", 6), (45, 108, 54))
        self.assertEqual(self.sizes("random", "--switches", 9, "--cables", 14), (9, 14, 9))
        self.assertEqual(self.sizes("line", "--switches", 1), (1, 0, 1))
        self.assertEqual(self.sizes("star", "--switches", 1), (1, 0, 1))

    def test_each_packet_has_hops_enough(self):
        for words in (
            ["line", "--switches", 9],
            ["ring", "--switches", 8],
            ["fat-tree"],
            ["random", "--switches", 20, "--net-seed", 7],
        ):
            source = made(*words, "--flows", "all" if words[0] == "line" else "far")
            for flow in source.flows:
                home, far = source.net.host_port[flow["to"]][0], source.net.host_port[flow["from"]][0]
                self.assertLess(source.net.distances(home)[far], flow["hops"])

    def test_flows(self):
        flows = lambda pattern: [(f["from"], f["to"]) for f in made("line", "--switches", 4, "--flows", pattern).flows]
        self.assertEqual(flows("next"), [("h0", "h1"), ("h1", "h2"), ("h2", "h3"), ("h3", "h0")])
        self.assertEqual(flows("far"), [("h0", "h2"), ("h1", "h3"), ("h2", "h0"), ("h3", "h1")])
        self.assertEqual(flows("one"), [("h0", "h3")])
        self.assertEqual(flows("to-one"), [("h1", "h0"), ("h2", "h0"), ("h3", "h0")])
        self.assertEqual(len(flows("all")), 12)
        self.assertEqual(len(flows("random")), 4)
        self.assertEqual(flows("none"), [])

    def test_parameters(self):
        source = made(
            "ring",
            "--bits",
            3,
            "--window",
            4,
            "--ring",
            6,
            "--snapshots",
            5,
            "--loss-init",
            7,
            "--seed",
            9,
            "--passes",
            2,
            "--every",
            3,
        )
        self.assertEqual(source.snapshot, {"bits": 3, "window": 4, "ring": 6, "count": 5, "retries": 3, "credits": 1, "version": 1})
        self.assertEqual((source.loss["seed"], source.loss["init"], source.loss["cable"]), (9, 7, 0))
        self.assertEqual(source.entries[:3], ["pass 2", "pass 3", "observer issue"])
        self.assertEqual(len(source.entries), 11)

    def test_versions(self):
        self.assertEqual(made("line", "--bits", 12, "--window", 1000).snapshot["version"], 2)
        self.assertEqual(made("line", "--version", 2).snapshot["version"], 2)
        self.assertIn("--bits 12 needs frames of version 2", run("topology", "line", "--bits", 12, "--version", 1)[2])

    def test_the_same_net_each_time(self):
        words = ["random", "--switches", 12, "--flows", "random", "--net-seed", 5]
        self.assertEqual(run("topology", *words), run("topology", *words))
        self.assertNotEqual(run("topology", *words[:-1], 6)[1], run("topology", *words)[1])
        self.assertEqual(run("topology", *LOSSY_NET.split())[1], (DATA / "lossy_net.toml").read_text())
        self.assertIn(f"tools/topology {LOSSY_NET}", (TOP / "docs" / "TOOLS.md").read_text().replace(" \\\n    ", " "))

    def test_the_program_takes_them(self):
        found = program.compiled()
        if found is None:
            self.skipTest("no compiled program")
        for shape in ("line", "ring", "star", "leaf-spine", "fat-tree", "random"):
            done = subprocess.run([found, "routes"], input=run("topology", shape)[1].encode(), capture_output=True)
            self.assertEqual(done.returncode, 0, shape)

    def test_nets_that_are_too_large(self):
        for words, why in (
            (["star", "--switches", 10], "`middle` would have 9 ports"),
            (["leaf-spine", "--hosts", 7], "`l0` would have 9 ports"),
            (["ring", "--switches", 2], "at least 3"),
            (["random", "--switches", 5, "--cables", 3], "at least 4"),
            (["random", "--switches", 3, "--cables", 9], "no more than 3"),
            (["line", "--switches", 40, "--hosts", 4], "160 hosts"),
            (["line", "--window", 9], "--window 9 is too large: with --bits 2 it is 1 to 3; or give --bits 4"),
            (["line", "--ring", 9], "--ring 9 is out of range: with --window 1 and --bits 2 it is 1 to 4"),
            (["line", "--snapshots", 100, "--every", 200], "20000 passes, and at most 10000"),
            (["line", "--switches", 20, "--count", 20000], "400000 packets, and at most 200000"),
            (["line", "--switches", 20, "--snapshots", 100000], "rows, one for each unit"),
        ):
            status, out, err = run("topology", *words)
            self.assertEqual((status, out, err.count("\n")), (1, "", 1), words)
            self.assertIn(why, err)
        self.assertEqual(run("topology", "line", "--window", 9, "--bits", 4)[0], 0)
        self.assertEqual(run("topology")[0], 2)

    def test_ranges_in_words_of_its_own(self):
        for words, why in (
            (["line", "--switches", "x"], "`x` is no whole number: it is 1 to 64"),
            (["line", "--switches", 65], "65 is out of range: it is 1 to 64"),
            (["fat-tree", "--arity", 5], "2, 4 or 6 ports"),
            (["fat-tree", "--arity", 8], "2, 4 or 6 ports"),
            (["line", "--loss-cable", "0.1"], "losses are per thousand messages, 0 to 1000: `0.1` is 100"),
            (["line", "--loss-init", "5%"], "losses are per thousand messages, 0 to 1000: `5%` is 50"),
            (["line", "--loss-notice", 1001], "1001 is out of range: it is 0 to 1000, of a thousand messages"),
            (["line", "--bits", 17], "17 is out of range: it is 1 to 16"),
            (["line", "--count", 20001], "0 to 20000"),
            (["line", "--bytes", "1e3"], "no whole number"),
            (["line", "--retries", -1], "out of range"),
            (["line", "--version", 3], "it is 1 to 2"),
        ):
            status, out, err = run("topology", *words)
            self.assertEqual((status, out), (2, ""), words)
            self.assertIn(why, err)


@unittest.skipUnless(HAS_LIBRARIES, "no networkx or no graphviz")
class Pictures(unittest.TestCase):
    def draw(self, *words, **more):
        status, svg, err = run("topology", "draw", *words, **more)
        self.assertEqual((status, err), (0, ""))
        tree.fromstring(svg)
        return svg

    def test_each_example(self):
        for path in accepted():
            self.assertIn(f">{read_input(path).net.devices[0]}<", self.draw(path), path.stem)

    def test_the_verdicts_colour_the_units(self):
        net, report = DATA / "lossy_net.toml", DATA / "lossy_net.report"
        whole = self.draw(net, "--report", report)
        for word in ("7 consistent, 4 skipped, 1 miscredited", "#c62828", "#8e24aa", "#d8efdf", "sent 40, got 38"):
            self.assertIn(word, whole)
        one = self.draw(net, "--report", report, "--snapshot", 4)
        self.assertIn("snapshot 4 inconsistent out s0.0 miscredited by 5", one)
        self.assertEqual((one.count("#8e24aa"), one.count("#d8efdf")), (1, 0))
        last = self.draw(net, "--report", report, "--snapshot", 12)
        self.assertIn("to l0: 2 missing", last)

    def test_what_does_not_fit(self):
        net, report = DATA / "lossy_net.toml", DATA / "lossy_net.report"
        for words, status in (
            ([net, "--report", TOP / "docs" / "dead_cable.trace"], 1),
            ([net, "--snapshot", 1], 1),
            ([net, "--report", report, "--snapshot", 13], 1),
            (["nothing.toml"], 1),
            ([EXAMPLES / "refused.toml"], 3),
        ):
            found, out, err = run("topology", "draw", *words)
            self.assertEqual((found, out, err.count("\n")), (status, "", 1), words)


if __name__ == "__main__":
    unittest.main()
