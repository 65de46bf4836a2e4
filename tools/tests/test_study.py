"""A study runs each point of its grid once, goes on where it was, and adds up the verdicts."""

import csv
import signal
import subprocess
import tempfile
import time
import unittest
import xml.etree.ElementTree as tree
from pathlib import Path

from shared import ENVIRONMENT, EXAMPLES, TOOLS, TOP, run

from speedlight_tools import needs
from speedlight_tools.studies import NoPlan, Plan, shares

HAS_LIBRARIES = needs.python_with("snakemake", "matplotlib") is not None
PLAN = """title = "A test"
input = "net.toml"
[grid]
window = [1, 3]
ring = [1, 3]
seed = "1-2"
[[picture]]
name = "both"
across = "ring"
up = "window"
"""
# A stand-in for the program: it takes 2 snapshots, and with a window above 1 the first is skipped.
PROGRAM = """#!/bin/bash
echo "$1" >> {folder}/calls
input=$(cat)
[ -e {folder}/slow ] && sleep 2
[ -e {folder}/killed ] && [[ "$input" == *"seed = 2"* ]] && kill -SEGV $$
[ -e {folder}/half ] && [[ "$input" == *"seed = 2"* ]] && {{ echo "speedlight 1"; exit; }}
[ -e {folder}/broken ] && {{ echo "speedlight: out of memory" >&2; exit 6; }}
echo "speedlight 1"; echo "network devices 1 units 0 hosts 0"; echo "observer count 2 issued 2 collected 2 resent 0"
[[ "$input" == *"window = 1"* ]] && echo "snapshot 1 consistent" || echo "snapshot 1 inconsistent in a.0 skipped to 2"
echo "snapshot 2 consistent"
echo "drops bad 0 expired 0 noroute 0"; echo "lost cable 0 crossbar 0 init 1 notice 2"; echo end
"""


class Folder(unittest.TestCase):
    def setUp(self):
        self.held = tempfile.TemporaryDirectory()
        self.addCleanup(self.held.cleanup)
        self.folder = Path(self.held.name)
        (self.folder / "net.toml").write_text((EXAMPLES / "one_port.toml").read_text())
        self.plan(PLAN)

    def plan(self, text):
        (self.folder / "plan.toml").write_text(text)
        return self.folder / "plan.toml"


class Plans(Folder):
    def test_the_points_of_the_grid(self):
        runs, refused = Plan(self.folder / "plan.toml").runs()
        self.assertEqual(
            list(runs),
            [f"window-{w}_ring-{r}_seed-{s}_command-step" for w, r in ((1, 1), (1, 3), (3, 3)) for s in (1, 2)],
        )
        self.assertEqual({reason: len(points) for reason, points in refused.items()}, {"I6 snapshot.ring": 2})

    def test_a_ring_that_stays_below_the_windows(self):
        runs, refused = Plan(self.plan(PLAN.replace("ring = [1, 3]\n", "").replace('"ring"', '"seed"').replace("[1, 3]", "[1, 5, 7]"))).runs()
        self.assertEqual(len(runs), 2)
        self.assertEqual({why: len(points) for why, points in refused.items()}, {"I6 snapshot.window": 4})
        net = self.folder / "net.toml"
        net.write_text(net.read_text().replace("bits = 2", "bits = 3"))
        _, refused = Plan(self.folder / "plan.toml").runs()
        self.assertEqual({why: len(points) for why, points in refused.items()}, {"the window is above ring 3: add `ring` to [grid]": 4})

    def test_the_pace_of_a_topology(self):
        if needs.python_with("networkx", "graphviz") is None:
            self.skipTest("no networkx or no graphviz")
        plan = PLAN.replace('input = "net.toml"', 'topology = "line --every 9 --snapshots 2 --bits 3"').replace("[grid]", "[grid]\nevery = [0, 2]\npasses = [1, 3]")
        runs, _ = Plan(self.plan(plan)).runs()
        self.assertEqual(len(runs), 24)
        scripts = {name.partition("_window")[0]: text.partition("script")[2] for name, (_, text) in runs.items()}
        self.assertEqual(list(scripts), ["every-0_passes-1", "every-0_passes-3", "every-2_passes-1", "every-2_passes-3"])
        self.assertEqual(len(set(scripts.values())), 4)
        self.assertNotIn("pass 9", "".join(scripts.values()))

    def test_the_plan_of_the_documents(self):
        if needs.python_with("networkx", "graphviz") is None:
            self.skipTest("no networkx or no graphviz")
        path = TOOLS / "plans" / "lossy_leaf_spine.toml"
        runs, _ = Plan(path).runs()
        self.assertEqual(len(runs), 400)
        self.assertTrue(path.read_text() in (TOP / "docs" / "TOOLS.md").read_text())

    def test_what_is_no_plan(self):
        for text, why in (
            ("x = ", "no TOML document"),
            ("colour = 1\n", "`colour`"),
            (PLAN.replace("[grid]", "[gird]"), "`gird`"),
            (PLAN.replace('input = "net.toml"', ""), "one of `input`"),
            (PLAN.replace("window = [1, 3]", "window = []"), "window: a list"),
            (PLAN.replace('"1-2"', '"2-1"'), "a range"),
            (PLAN.replace('"1-2"', '"1-200000"'), "200000 values, and a study takes at most 20000 runs"),
            (PLAN.replace('"1-2"', '"1-9999999999999"'), "at most 20000 runs"),
            (PLAN.replace('"1-2"', '"1-9999"'), "39996 points (2 window x 2 ring x 9999 seed)"),
            (PLAN.replace("[1, 3]", "[9]"), "no point of the grid"),
            (PLAN.replace('across = "ring"', 'across = "bits"'), "`across`"),
            (PLAN + "where = {seed = 7}\n", "no seed = 7"),
            (PLAN.replace("window = [1, 3]", 'window = [1, "3"]'), "whole numbers"),
            ('command = "jump"\n' + PLAN, "command is step or run"),
            (PLAN.replace('name = "both"', 'name = "a/b"'), "letters"),
            (PLAN.replace("seed =", "seeds ="), "`seeds`"),
            (PLAN.replace("seed =", "every = [1, 2]\nseed ="), "`every`, which goes with `topology`"),
        ):
            with self.assertRaises(NoPlan, msg=text) as caught:
                Plan(self.plan(text)).runs()
            self.assertIn(why, str(caught.exception))

    def test_shares(self):
        rows = [
            {
                "a": "1",
                "b": "1",
                "seed": "1",
                **dict.fromkeys(("skipped", "miscredited", "pending", "not_issued"), "0"),
                "consistent": "2",
            },
            {
                "a": "1",
                "b": "1",
                "seed": "2",
                **dict.fromkeys(("consistent", "miscredited", "pending", "not_issued"), "0"),
                "skipped": "2",
            },
        ]
        cells = shares(rows, {"across": "a", "up": "b", "where": {}})
        self.assertEqual(cells["1", "1"]["consistent"], 2)
        self.assertEqual(cells["1", "1"]["skipped"], 2)
        self.assertEqual(shares(rows, {"across": "a", "up": "b", "where": {"seed": 2}})["1", "1"]["consistent"], 0)


@unittest.skipUnless(HAS_LIBRARIES, "no snakemake or no matplotlib")
class Studies(Folder):
    def setUp(self):
        super().setUp()
        self.program = self.folder / "program"
        self.program.write_text(PROGRAM.format(folder=self.folder))
        self.program.chmod(0o755)

    def study(self, *words):
        return run(
            "study",
            self.folder / "plan.toml",
            "--out",
            self.folder / "out",
            "--program",
            self.program,
            "--cores",
            "2",
            *words,
        )

    def table(self):
        return list(csv.DictReader((self.folder / "out" / "table.csv").read_text().splitlines()))

    def calls(self):
        path = self.folder / "calls"
        count = len(path.read_text().split()) if path.exists() else 0
        path.unlink(missing_ok=True)
        return count

    def test_a_study(self):
        status, out, err = self.study()
        self.assertEqual(status, 0, err)
        self.assertIn("table.csv, both.svg", out)
        self.assertIn("left out 2", err)
        self.assertEqual(self.calls(), 6)
        rows = self.table()
        self.assertEqual(
            [(r["window"], r["skipped"], r["lost_cable"], r["lost_crossbar"], r["lost_init"], r["lost_notice"]) for r in rows],
            [("1", "0", "0", "0", "1", "2")] * 4 + [("3", "1", "0", "0", "1", "2")] * 2,
        )
        svg = (self.folder / "out" / "both.svg").read_text()
        words = [e.text for e in tree.fromstring(svg).iter("{http://www.w3.org/2000/svg}text")]
        for word in ("consistent", "skipped", "100", "50", "A test: % of the snapshots"):
            self.assertIn(word, words)
        # What is done stays; what is missing, and what the grid has gained, is run.
        next((self.folder / "out" / "reports").iterdir()).unlink()
        self.plan(PLAN.replace('"1-2"', '"1-3"'))
        self.assertEqual(self.study()[0], 0)
        self.assertEqual(self.calls(), 4)
        self.assertEqual(len(self.table()), 9)
        # A picture that is asked for otherwise is made again, though the table stays the same.
        self.plan(PLAN.replace('"1-2"', '"1-3"').replace("A test", "Another"))
        self.assertEqual(self.study()[0], 0)
        self.assertEqual(self.calls(), 0)
        self.assertIn("Another: % of the snapshots", (self.folder / "out" / "both.svg").read_text())
        # Another input is run anew.
        net = self.folder / "net.toml"
        net.write_text(net.read_text().replace("count = 1", "count = 2"))
        self.assertEqual(self.study()[0], 0)
        self.assertEqual(self.calls(), 9)

    def test_a_program_that_refuses(self):
        (self.folder / "broken").touch()
        status, out, err = self.study()
        self.assertEqual((status, out), (1, ""))
        self.assertIn("6 of 6 runs failed", err)
        self.assertIn("speedlight: out of memory", err)
        (self.folder / "broken").unlink()
        self.assertEqual(self.study()[0], 0)

    def test_one_failed_run_leaves_the_table_of_the_others(self):
        for name, why in (("killed", "killed by SIGSEGV"), ("half", "its report is no whole one")):
            (self.folder / name).touch()
            status, out, err = self.study()
            self.assertEqual(status, 1, err)
            self.assertEqual(err.count(why), 3, err)
            self.assertIn("failed: window-1_ring-1_seed-2_command-step: ", err)
            self.assertIn("3 of 6 runs failed: the table has the others", err)
            self.assertIn("table.csv, both.svg", out)
            self.assertEqual([row["seed"] for row in self.table()], ["1"] * 3)
            (self.folder / name).unlink()
            self.calls()
            self.assertEqual(self.study()[0], 0)
            self.assertEqual((self.calls(), len(self.table())), (3, 6))
            self.plan(PLAN.replace('"1-2"', "[1, 2]"))
            for report in (self.folder / "out" / "reports").glob("*seed-2*"):
                report.unlink()

    def test_a_blank_in_the_path(self):
        blank = self.folder / "a folder"
        blank.mkdir()
        program = blank / "a program"
        program.write_text(self.program.read_text())
        program.chmod(0o755)
        (blank / "net.toml").write_text((self.folder / "net.toml").read_text())
        (blank / "a plan.toml").write_text(PLAN)
        status, out, err = run("study", blank / "a plan.toml", "--out", blank / "the runs", "--program", program)
        self.assertEqual(status, 0, err)
        self.assertTrue((blank / "the runs" / "both.svg").exists())

    def test_another_program_is_told(self):
        self.study()
        self.calls()
        self.program.write_text(self.program.read_text() + "\n# another\n")
        status, _, err = self.study()
        self.assertEqual((status, self.calls()), (0, 6))
        self.assertLess(err.index("the program is another than that of the 6 finished runs, which was built anew"), err.index("of 6 runs"))
        self.assertNotIn("another", self.study()[2])

    def test_stopping_it(self):
        (self.folder / "slow").touch()
        words = [str(TOOLS / "study"), str(self.folder / "plan.toml"), "--out", str(self.folder / "out")]
        words += ["--program", str(self.program), "--cores", "1"]
        with subprocess.Popen(words, stderr=subprocess.PIPE, text=True, env=ENVIRONMENT) as study:
            while not list((self.folder / "out" / "reports").glob("*")):
                time.sleep(0.1)
            study.send_signal(signal.SIGINT)
            err = study.communicate(timeout=60)[1]
        self.assertEqual(study.returncode, 130)
        self.assertRegex(err, r"stopped: \d of 6 runs are done; call again to go on\n")
        self.assertNotIn("Traceback", err)
        (self.folder / "slow").unlink()
        self.assertEqual(self.study()[0], 0)
        self.assertEqual(len(self.table()), 6)

    def test_how_long_it_will_take(self):
        self.assertRegex(self.study()[2], r"\d of 6 runs, about \d+ seconds left")

    def test_words_for_snakemake(self):
        for words in (["--", "--cluster"], ["--", "--cluster", "--jobs", "3"], ["--", "--jobs"]):
            status, out, err = self.study(*words)
            self.assertEqual((status, out, err.count("\n")), (1, "", 1), err)
            self.assertIn("takes", err)

    def test_words(self):
        status, out, err = self.study("--dry-run")
        self.assertEqual((status, out), (0, ""))
        self.assertRegex(
            err,
            r"\A6 runs; left out 2 that are no input \(I6 snapshot.ring\)\n"
            r"window-1_ring-3_seed-2_command-step took \d\.\d seconds: that makes \d\.\d seconds in all with \d+ at a time, and snakemake's own time\n\Z",
        )
        self.assertFalse((self.folder / "out").exists())
        self.assertEqual(run("study", "nothing.toml")[0], 1)
        self.assertEqual(run("study")[0], 2)


if __name__ == "__main__":
    unittest.main()
