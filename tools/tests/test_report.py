"""A report as JSON, CSV, balance and pictures."""

import csv
import io
import json
import subprocess
import unittest
import xml.etree.ElementTree as tree

from shared import DATA, EXAMPLES, TOP, run

from speedlight_tools import balance, needs, program
from speedlight_tools.inputs import read_input
from speedlight_tools.reports import read_report

REPORT, INPUT = DATA / "lossy_net.report", DATA / "lossy_net.toml"
HAS_MATPLOTLIB = needs.python_with("matplotlib") is not None


def cut_report(name):
    return (TOP / "docs" / f"{name}.trace").read_text().split("trace ")[0]


class Forms(unittest.TestCase):
    def test_the_report_is_that_of_the_input(self):
        found = program.compiled()
        if found is None:
            self.skipTest("no compiled program")
        done = subprocess.run([found, "step"], input=INPUT.read_bytes(), capture_output=True)
        self.assertEqual(done.stdout, REPORT.read_bytes())

    def test_json(self):
        whole = json.loads(run("report", "json", REPORT)[1])
        self.assertEqual(whole["observer"], {"count": 12, "issued": 12, "collected": 12, "resent": 0})
        first, fourth = whole["snapshots"][0], whole["snapshots"][3]
        self.assertEqual(
            first["units"][0],
            {
                "unit": "in s0.0",
                "packets": 2,
                "bytes": 200,
                "channels": {"cable": {"packets": 0, "bytes": 0}},
            },
        )
        self.assertEqual(
            fourth, {"snapshot": 4, "verdict": "miscredited", "unit": "out s0.0", "channel": None, "number": 5}
        )
        self.assertEqual(whole["hosts"]["h0"], {"sent": 40, "delivered": 38})
        pending = json.loads(run("report", "json", data=cut_report("dead_cable"))[1])["snapshots"]
        self.assertEqual(
            [(s["verdict"], s["unit"], s["channel"], s["number"]) for s in pending],
            [("pending", "in a.1", "cable", 0), ("not issued", "in a.1", None, 0)],
        )

    def test_csv(self):
        rows = list(csv.DictReader(io.StringIO(run("report", "csv", REPORT)[1])))
        report = read_report(REPORT.read_text())
        self.assertEqual(len(rows), sum(len(s.counts) or 1 for s in report.snapshots))
        row = next(r for r in rows if r["snapshot"] == "1" and r["unit"] == "out s0.0")
        self.assertEqual(
            (row["packets"], row["x2_packets"], row["x2_bytes"], row["cable_packets"]), ("0", "2", "200", "")
        )
        row = next(r for r in rows if r["snapshot"] == "4")
        self.assertEqual(
            (row["verdict"], row["unit"], row["packets"], row["fault_number"]), ("miscredited", "out s0.0", "", "5")
        )

    def test_the_example_of_the_documents(self):
        lines = [line.split(",") for line in run("report", "csv", REPORT)[1].splitlines()]
        shown = [",".join(words[:5] + words[15:17]) for words in (*lines[:3], *lines[108:111])]
        self.assertTrue("```text\n" + "\n".join(shown) + "\n```" in (TOP / "docs" / "TOOLS.md").read_text())

    def test_the_balance_finds_the_lossy_cables(self):
        told = run("report", "balance", REPORT, "--input", INPUT)[1]
        lines = [line for line in told.splitlines() if "does not add up" in line]
        self.assertEqual(
            lines,
            [
                "cable s0.0 to l0.2 does not add up: 2 of 40 packets (50 of a thousand) lost",
                "cable l0.2 to s0.0 does not add up: 1 of 40 packets (25 of a thousand) lost",
                "cable l1.2 to s0.1 does not add up: 2 of 40 packets (50 of a thousand) lost",
            ],
        )
        self.assertIn(told, (TOP / "docs" / "TOOLS.md").read_text())
        rows = json.loads(run("report", "balance", REPORT, "--input", INPUT, "--json", "--snapshot", 1)[1])
        self.assertEqual(rows["snapshot"], 1)
        self.assertTrue(all(r["missing"] == [0, 0] for r in rows["cables"]))

    def test_what_is_in_flight_is_not_missing(self):
        net = read_input(INPUT).net
        flights = 0
        for snapshot in read_report(REPORT.read_text()).consistent():
            for row in [*balance.cables(net, snapshot), *balance.switches(net, snapshot)]:
                self.assertTrue(all(m >= 0 for m in row.missing))
                flights += row.flight[0]
        self.assertGreater(flights, 0)

    def test_errors_are_plain(self):
        trace = TOP / "docs" / "two_in_flight.trace"
        cases = [
            (["json", EXAMPLES / "one_port.toml"], "one_port.toml: this is an input"),
            (["json", "nothing"], "No such file"),
            (["balance", REPORT], "--input"),
            (["balance", REPORT, "--input", EXAMPLES / "one_port.toml"], "of this input?"),
            (["balance", REPORT, "--input", INPUT, "--snapshot", "4"], "miscredited"),
            (["balance", REPORT, "--input", INPUT, "--snapshot", "40"], "no snapshot 40"),
            (
                ["balance", TOP / "docs" / "dead_cable.trace", "--input", EXAMPLES / "dead_cable.toml"],
                "no snapshot is consistent",
            ),
        ]
        for words, why in cases:
            status, out, err = run("report", *words)
            self.assertEqual((status, out, err.count("\n")), (1, "", 1), err)
            self.assertIn(why, err)
        self.assertIn("all adds up", run("report", "balance", trace, "--input", EXAMPLES / "two_in_flight.toml")[1])
        self.assertEqual(run("report", "balance", REPORT, "--input", EXAMPLES / "refused.toml")[0], 3)
        self.assertEqual(run("report", "nonsense")[0], 2)


class Texts(unittest.TestCase):
    """The other texts of the program, and what is none of them."""

    def test_they_are_those_of_the_input(self):
        found = program.compiled()
        if found is None:
            self.skipTest("no compiled program")
        for words in (["values"], ["poll", "3", "3"], ["balance"]):
            done = subprocess.run([found, *words], input=INPUT.read_bytes(), capture_output=True)
            self.assertEqual(done.stdout, (DATA / f"lossy_net.{words[0]}").read_bytes())

    def rows(self, *words):
        status, out, err = run("report", *words)
        self.assertEqual((status, err), (0, ""))
        return [line.split() for line in out.splitlines()]

    def test_values(self):
        rows = self.rows("values", DATA / "lossy_net.values", "--units", "in l0.0,s1.0")
        self.assertEqual(rows[0], ["unit", *map(str, range(1, 13))])
        self.assertEqual([row[:2] for row in rows[1:]], [["in", "s1.0"], ["out", "s1.0"], ["in", "l0.0"]])
        self.assertEqual(rows[3][2:8], ["3", "(+3)", "6", "(+3)", "9", "(+3)"])

    def test_poll(self):
        rows = self.rows("poll", DATA / "lossy_net.poll", "--most", "1")
        self.assertEqual(rows[1], ["in", "l0.0", "39", "2", "200"])
        self.assertEqual(" ".join(rows[2]), "broken by a packet on in l1.2 cable: sent at turn 30, received at turn 40")

    def test_the_table_of_balance(self):
        rows = self.rows("balance", DATA / "lossy_net.balance")
        self.assertEqual(rows[0], ["snapshot", "device", "cables", "least", "greatest", "spread"])
        self.assertEqual(rows[1], ["1", "s0", "3", "0", "2", "6"])
        self.assertIn(["device", "host", "equal", "ways"], rows)
        found = json.loads(run("report", "balance", DATA / "lossy_net.balance", "--json", "--snapshot", "1")[1])
        self.assertEqual(found[0], {"snapshot": 1, "device": "s0", "cables": 3, "least": 0, "greatest": 2, "spread": 6})

    def test_json_and_csv_of_each(self):
        for name, head in (("values", "snapshot,verdict,unit"), ("poll", "unit,turn,packets"), ("balance", "snapshot,device")):
            json.loads(run("report", "json", DATA / f"lossy_net.{name}")[1])
            self.assertTrue(run("report", "csv", DATA / f"lossy_net.{name}")[1].startswith(head))

    def test_totals_and_changes_and_the_largest(self):
        rows = self.rows("counts", REPORT, "--table", "--most", "2")
        self.assertEqual([row[:6] for row in rows[1:]], [["out", "s0.0", "0", "(+0)", "2", "(+2)"], ["in", "s0.2", "2", "(+2)", "4", "(+2)"]])
        told = run("report", "counts", REPORT, "--table", "--most", "2")[1]
        self.assertIn(f"```text\n{told}```", (TOP / "docs" / "TOOLS.md").read_text())
        rows = self.rows("flight", REPORT, "--table", "--units", "l0.2")
        self.assertTrue(all(row[:2] in (["in", "l0.2"], ["out", "l0.2"]) for row in rows[1:]))
        self.assertEqual(len(list(csv.DictReader(io.StringIO(run("report", "csv", REPORT, "--units", "s0.0")[1])))), 7 * 2 + 5)

    def test_the_kind_of_text_is_named(self):
        texts = [
            ("", "it is empty"),
            ("hello\n", "no text of the program"),
            ((EXAMPLES / "ring.toml").read_text(), "an input"),
            ("trace 1\nobserver issue\n", "a trace without its report"),
            ("speedlight: I2\n", "a line with which the program refuses"),
            ("sample 3\ndevices 7\n", "the summary of `speedlight sample`"),
            ("route a h0 0 0\nend\n", "what `speedlight routes` prints"),
            ("check yes\n", "an answer of `speedlight check`"),
            ('{"network": 1}', "JSON"),
            ("<svg></svg>", "a picture"),
            ((DATA / "lossy_net.poll").read_text(), "what `speedlight poll` prints"),
            ((DATA / "lossy_net.values").read_text(), "what `speedlight values` prints"),
        ]
        for text, why in texts:
            status, out, err = run("report", "verdicts" if "lossy" not in why and "values" not in why else "flight", data=text)
            self.assertEqual((status, out, err.count("\n")), (1, "", 1), text[:40])
            self.assertIn("tools/report: standard input: ", err)
            self.assertIn(why, err)
        self.assertIn("needed is what `speedlight poll` prints", run("report", "poll", REPORT)[2])

    def test_a_text_that_is_cut_off(self):
        for name, form in (("report", "json"), ("values", "json"), ("poll", "json"), ("balance", "json")):
            text = (DATA / f"lossy_net.{name}").read_text()
            lines = text.splitlines(keepends=True)
            for cut in ("".join(lines[:-1]), "".join(lines[: len(lines) // 2]), text[: len(text) // 2]):
                status, out, err = run("report", form, data=cut)
                self.assertEqual((status, out, err.count("\n")), (1, "", 1), name)
                self.assertIn("cut off after line", err)
        trace = (TOP / "docs" / "two_in_flight.trace").read_text()
        self.assertIn("cut off after line", run("report", "json", data="".join(trace.splitlines(keepends=True)[:-3]))[2])

    def test_options_that_do_nothing(self):
        for words in (
            ["json", REPORT, "--snapshot", "1"],
            ["csv", REPORT, "--json"],
            ["verdicts", REPORT, "--units", "s0"],
            ["balance", REPORT, "--input", INPUT, "--most", "2"],
            ["values", DATA / "lossy_net.values", "--table"],
            ["counts", REPORT, "--picture"],
            ["json", REPORT, "--input", INPUT],
            ["json", REPORT, "--program", "x"],
            ["poll", "--input", INPUT],
            ["counts", REPORT, "--most", "0"],
        ):
            status, out, err = run("report", *words)
            self.assertEqual((status, out), (2, ""), words)
        self.assertIn("--snapshot does nothing for json: it goes with balance", run("report", "json", REPORT, "--snapshot", "1")[2])
        status, _, err = run("report", "csv", REPORT, "--units", "zz")
        self.assertEqual(status, 1)
        self.assertIn("no unit, port or switch `zz`", err)

    def test_the_file_is_named(self):
        for words in (["json", EXAMPLES / "ring.toml"], ["json", TOP / "nothing"], ["json", TOP], ["counts", EXAMPLES / "ring.toml", "--table"]):
            self.assertIn(str(words[1]), run("report", *words)[2])


@unittest.skipUnless(HAS_MATPLOTLIB, "no matplotlib")
class Pictures(unittest.TestCase):
    def words(self, form, *words, **more):
        status, svg, err = run("report", form, *words, **more)
        self.assertEqual((status, err), (0, ""))
        return [e.text for e in tree.fromstring(svg).iter("{http://www.w3.org/2000/svg}text")]

    def test_counts(self):
        words = self.words("counts", REPORT)
        for word in ("in l2.2", "39", "skipped", "packets counted before the cut (12 more units not shown)"):
            self.assertIn(word, words)
        self.assertIn("snapshot 1", self.words("counts", data=cut_report("two_in_flight")))

    def test_flight(self):
        words = self.words("flight", REPORT)
        for word in ("out l0.2 x1", "3", "miscredited", "packets in flight"):
            self.assertIn(word, words)
        self.assertNotIn("in s0.0 cable", words)

    def test_verdicts(self):
        words = self.words("verdicts", REPORT)
        for word in ("12", "consistent 7", "skipped 4", "miscredited 1"):
            self.assertIn(word, words)
        self.assertIn("not issued 1", self.words("verdicts", data=cut_report("dead_cable")))

    def test_the_same_each_time(self):
        self.assertEqual(run("report", "flight", REPORT), run("report", "flight", REPORT))

    def test_changes_stand_beside_totals(self):
        words = self.words("counts", REPORT)
        self.assertIn("since the consistent snapshot before", words)
        self.assertIn("36", words)

    def test_a_scale_where_cells_have_no_numbers(self):
        many = ["speedlight 1", "network devices 1 units 1 hosts 0", "observer count 50 issued 50 collected 50 resent 0"]
        for k in range(1, 51):
            many += [f"snapshot {k} consistent", f"in a.0 {3 * k} 0"]
        many += ["drops bad 0 expired 0 noroute 0", "lost cable 0 crossbar 0 init 0 notice 0", "end", ""]
        words = self.words("counts", data="\n".join(many))
        self.assertIn("packets", words)
        self.assertNotIn("150", words)
        self.assertNotIn("packets", self.words("counts", REPORT))

    def test_the_other_texts(self):
        self.assertIn("packets counted before the cut (28 more units not shown)", self.words("values", DATA / "lossy_net.values", "--picture", "--most", "8"))
        words = self.words("poll", DATA / "lossy_net.poll", "--picture")
        self.assertIn("in l0.0, before turn 40", words)
        words = self.words("balance", DATA / "lossy_net.balance", "--picture")
        self.assertIn("greatest less least use of the cables of a switch", words)
        self.assertIn("consistent 12", self.words("verdicts", DATA / "lossy_net.values"))

    def test_nothing_to_draw(self):
        for form in ("counts", "flight"):
            status, out, err = run("report", form, data=cut_report("dead_cable"))
            self.assertEqual((status, out, err.count("\n")), (1, "", 1))


if __name__ == "__main__":
    unittest.main()
