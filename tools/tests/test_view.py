"""The page of a run, in a real browser: what it shows of twenty runs, compared with their reports.

With `--pictures FOLDER` it makes the screenshots of the documents there in place of the tests."""

import base64
import gzip
import io
import json
import re
import sys
import tempfile
import unittest
from html import escape
from pathlib import Path

from shared import EXAMPLES, TOP, accepted, run

from browser import Browser, in_a_python_with_selenium, lack

in_a_python_with_selenium()

from speedlight_tools import program
from speedlight_tools.banners import Banner
from speedlight_tools.inputs import read_input
from speedlight_tools.replay import replay
from speedlight_tools.reports import read_report
from speedlight_tools.stories import Stories

# Runs beside those of the examples: their inputs by the parameters of tools/topology.
NETS = {
    "leaf_spine_with_losses": "leaf-spine --hosts 2 --count 20 --snapshots 8 --every 3 --bits 3 --window 3 --loss-cable 20 --loss-init 60 --seed 3",
    "line": "line --switches 3 --count 12 --snapshots 5 --every 2 --window 3 --loss-crossbar 30 --loss-notice 100 --seed 2",
    "ring": "ring --switches 4 --count 9 --snapshots 6 --every 2 --window 2 --loss-init 250 --retries 1 --seed 5",
    "ring_of_window_3": "ring --switches 4 --count 40 --window 3 --bits 2 --snapshots 4 --loss-init 90 --every 1 --seed 2",
    "fat_tree": "fat-tree --arity 4 --count 6 --snapshots 5 --every 2 --bits 3 --window 3 --loss-cable 10 --loss-init 40 --seed 4",
}
PICTURES = {
    "view": ("leaf_spine_with_losses", "#snapshot=5", 1280, 800, "light", ""),
    "view_dark": ("two_in_flight", "#snapshot=1&turn=12&poll=3,3", 1280, 800, "dark", ""),
    "view_values": ("leaf_spine_with_losses", "#snapshot=1", 1280, 800, "light", ""),
    "view_phone": ("dead_cable", "#snapshot=1", 390, 844, "light", ""),
}


# What happened to the first snapshot of some examples, and to the last of dead_cable, turn by turn, from 0.
STORIES = {
    "dead_cable": [
        [None, "The window is 1: the observer issues 2 only when all units have reported 1, and in a.1 has reported 0."],
        [None, "So snapshot 1 is what all later ones wait for."],
    ],
    "lost_initiation": [
        [0, "The observer issues snapshot 1."],
        [1, "control a sends the initiation 1 to in a.0: it is lost on the way."],
        [4, "in a.0 is at 0 and takes the initiation 2 from control a: it goes to 2 at once, and saves nothing for snapshot 1."],
        [5, "out a.0 goes over 1 too, from 0 to 2."],
    ],
    "too_late_packet": [
        [
            1,
            "in a.0 is at 0 (control a begins snapshot 1 only at turn 5), so it has not reached 1, and sends the packet 0 from h0 to h1 "
            "over x0 to out a.1. It belongs to snapshot 1 as a packet in flight.",
        ],
        [2, "The observer issues snapshot 1."],
        [3, "The observer issues snapshot 2."],
        [8, "out a.1 reaches 1 and saves its counters."],
        [9, "out a.1 takes the probe 2 over x1 from in a.1: it goes on from 1 to 2, before the packet has come."],
        [
            10,
            "The packet 0 from h0 to h1 comes to out a.1, which is at 2 already and can credit it to snapshot 2 alone: so it is "
            "missing from snapshot 1.",
        ],
    ],
    "two_in_flight": [
        [4, "The observer issues snapshot 1."],
        [6, "in a.1 is the first unit to reach 1, and saves its counters."],
        [13, "out a.0 is the last unit to reach 1."],
    ],
}


# Why the first snapshot of some examples failed or isn't finished: the lines of the banner, each with what opens below it.
LINES = {
    "lost_initiation": [
        ["in a.0", "goes from 0 to 2 at turn 5, by initiation 2: no 1 came before", None],
        ["init", "from control a: initiation 1 is lost at turn 2", None],
        ["host", "h0 sends no numbers", None],
        ["out a.0", "failed it too: goes over 1 at turn 6", None],
    ],
    "too_late_packet": [
        ["out a.1", "takes packet 0 from h0 to h1 too late, at turn 11: already at 2", None],
        ["x0", "from in a.0: sent it at turn 2, still at 0 (control a begins snapshot 1 only at turn 5)", None],
        ["x1", "from in a.1: probe 2 moved the unit on to 2 at turn 10", "snapshot 1 was issued at turn 3, snapshot 2 at turn 4"],
    ],
    "dead_cable": [
        ["in a.1", "is at 1 itself, but waits for a 1 over the cable: nothing came", None],
        ["cable", "from out b.0: probe 1 is lost at turn 10", None],
        ["init", "from control a: brought 1 at turn 5", None],
        ["in b.0", "waits too", None],
    ],
}
WHOLE = [[None, "No unit took before the cut what was sent after it.", None]]
# What would have been right.
RIGHT = {
    "lost_initiation": "Right if initiation 1 (turn 2) had come before turn 5; and a 1 to out a.0 before turn 6.",
    "too_late_packet": "Right if the packet had come before turn 10, or with credits = 2.",
    "dead_cable": "Right if probe 1 (turn 10) had come.",
}
TITLES = {"consistent": ": consistent", "pending": ": not finished (pending)", "not issued": ": not begun (not issued)"}


def input_of(name, folder):
    """The path of an input: that of an example, or a net that is made."""
    if name not in NETS:
        return EXAMPLES / f"{name}.toml"
    status, text, errors = run("topology", *NETS[name].split())
    assert status == 0, errors
    path = Path(folder) / f"{name}.toml"
    path.write_text(text)
    return path


def built(name, folder, found):
    """A run of the input and its page: the path of both, the report and the world."""
    path = input_of(name, folder)
    status, told, errors = program.run(found, ["step", "--trace"], path.read_bytes())
    assert status == 0, errors
    report = read_report(told.decode())
    trace = Path(folder) / f"{name}.run"
    trace.write_bytes(told)
    status, page, errors = run("view", path, trace)
    assert (status, errors) == (0, ""), errors
    made = Path(folder) / f"{name}.html"
    made.write_text(page)
    return path, made, report, replay(read_input(path), report.trace)


class Words(unittest.TestCase):
    """What needs no browser."""

    def test_errors_are_plain(self):
        trace = lambda name: TOP / "docs" / f"{name}.trace"
        cases = [
            ([EXAMPLES / "refused.toml", trace("dead_cable")], 3, "I7 flow.0.to"),
            ([EXAMPLES / "nothing.toml"], 1, "No such file"),
            ([EXAMPLES / "one_port.toml", trace("dead_cable")], 1, "is not one of this input"),
            ([EXAMPLES / "dead_cable.toml", EXAMPLES / "dead_cable.toml"], 1, "no report"),
            ([EXAMPLES / "dead_cable.toml", "--program", "/nothing"], 1, "no program"),
            ([EXAMPLES / "dead_cable.toml", trace("dead_cable"), "--poll", "-1", "2"], 1, "--poll"),
        ]
        for words, wanted, why in cases:
            status, out, err = run("view", *words)
            self.assertEqual((status, out, err.count("\n")), (wanted, "", 1), err)
            self.assertIn(why, err)
        wrong = trace("lost_initiation").read_text()
        self.assertIn("without a trace", run("view", EXAMPLES / "lost_initiation.toml", "-", data=wrong.split("trace ")[0])[2])
        self.assertIn("the turns show", run("view", EXAMPLES / "lost_initiation.toml", "-", data=wrong.replace("to 2", "to 3"))[2])

    def test_one_file_that_loads_nothing(self):
        page = run("view", EXAMPLES / "dead_cable.toml", TOP / "docs" / "dead_cable.trace")[1]
        self.assertEqual(page, run("view", EXAMPLES / "dead_cable.toml", TOP / "docs" / "dead_cable.trace")[1])
        self.assertNotRegex(page, r"<(link|img|iframe)\b|<script[^>]* src=|@import|url\(")
        self.assertIn("Mike Bostock", page)
        self.assertNotRegex(page, r"\{\{\w+\}\}")

    def test_the_sentences_are_those_of_diagram(self):
        for name in ("dead_cable", "lost_initiation", "too_late_packet", "two_in_flight"):
            given = [EXAMPLES / f"{name}.toml", TOP / "docs" / f"{name}.trace"]
            words = json.loads(gzip.decompress(base64.b64decode(re.search(r'id="words">(.*?)</script>', run("view", *given)[1])[1])))
            self.assertEqual(words["snapshots"][0]["lines"], LINES.get(name, WHOLE))
            drawn = re.findall(r"<text [^>]*>([^<]*)<", run("diagram", *given)[1])
            self.assertEqual(words["snapshots"][0]["right"], RIGHT.get(name))
            lines = [f"{line} {said}{f' ({why})' if why else ''}." if line else said for line, said, why in words["snapshots"][0]["lines"]]
            said = escape(" ".join([*lines, *([RIGHT[name]] if name in RIGHT else [])]))
            self.assertTrue(" ".join(drawn[1:]).startswith(said), drawn[:4])
            self.assertEqual([[place, said] for place, said, *_ in words["snapshots"][-1 if name == "dead_cable" else 0]["steps"]], STORIES[name])


@unittest.skipIf(lack(), lack())
@unittest.skipUnless(program.compiled(), "no program is built")
class Page(unittest.TestCase):
    @classmethod
    def setUpClass(cls):
        cls.folder = tempfile.TemporaryDirectory()
        cls.program = program.compiled()
        cls.browser = Browser()

    @classmethod
    def tearDownClass(cls):
        cls.browser.__exit__()
        cls.folder.cleanup()

    def test_twenty_runs(self):
        names = [path.stem for path in accepted()] + list(NETS)
        self.assertGreaterEqual(len(names), 20)
        for name in names:
            with self.subTest(run=name):
                path, page, report, world = built(name, self.folder.name, self.program)
                self.browser.open(page)
                self.verdicts(path, report, world)
                self.scrubs(report)
                self.follows_packets(world)
                self.polls(path, report, world)
                self.assertEqual(self.browser.told(), [])

    def verdicts(self, path, report, world):
        """The strip, and of some snapshots the sentence, the cut, the counts and what was in flight."""
        code = "return [...document.querySelectorAll('#snapshots button')].map(b => [b.dataset.tip, b.getAttribute('aria-label')])"
        shown = self.browser.run(code)
        wanted = [[s.line, f"snapshot {s.number}, {s.verdict}"] for s in report.snapshots]
        self.assertEqual(shown, wanted[: len(shown)])
        self.assertGreaterEqual(len(shown), min(len(wanted), 75))
        stories = Stories(world, read_input(path), report.snapshots)
        first = {}
        for s in report.snapshots:
            first.setdefault(s.verdict, s)
        for s in [*report.snapshots[:2], *(s for s in first.values() if s.number > 2)]:
            self.browser.click(f'#snapshots [data-snapshot="{s.number}"]')
            told = self.browser.text("#verdict")
            self.assertIn(s.line, self.browser.text("#panel .line"))
            self.assertIn(f"Snapshot {s.number}{TITLES.get(s.verdict, f' failed: {s.verdict}')}", told)
            self.assertLessEqual(*self.browser.run("const p = document.getElementById('panel'); return [p.scrollWidth, p.clientWidth]"))
            if s.verdict == "not issued":
                continue
            banner = Banner(stories, s)
            shown = [f"{line.name} {line.words}{f' why? {line.why}' if line.why else ''}" if line.name else line.words for line in banner.lines()]
            items = "return [...document.querySelectorAll('#verdict .why li')].map(l => l.textContent)"
            self.assertEqual(self.browser.run(items), shown)
            self.assertEqual(stories.besides(s) is not None, "could not become consistent any more" in told)
            if banner.right():
                self.assertEqual(self.browser.text("#verdict .right"), banner.right())
                self.assertIn(s.unit, self.browser.text("#verdict .head"))
            self.columns_of_others(stories, s)
            late = self.lates(s, world)
            rows = self.browser.rows(1 if late else 0)
            waiting = [u for u in world.net.units if s.verdict == "pending" and u != s.unit and world.lag(u, s.number)]
            units = sorted(world.net.units, key=lambda unit: (unit != s.unit, unit not in waiting))
            marks = {**dict.fromkeys(waiting, " waits too"), s.unit: " waiting" if s.verdict == "pending" else " at fault"}
            self.assertEqual([row[0] for row in rows], [unit + marks.get(unit, "") for unit in units])
            crossings = [world.crossing(u, s.number) for u in units]
            if s.verdict == "consistent":
                self.counts(s, rows, crossings, world)
            else:
                self.assertEqual([row[1] for row in rows], ["never" if t is None else str(t.place + 1) for t in crossings])
            if s.verdict == "pending":
                panel = self.browser.text("#panel")
                self.assertIn("In flight across the cut: not known", panel)
                self.assertNotIn("fault", panel)
                self.assertNotIn("failed", told)
        self.cut_in_the_net(report, world)

    def columns_of_others(self, stories, s):
        """Among what is involved, a further unit that failed the snapshot has its column, and its sender too."""
        if s.verdict not in ("skipped", "miscredited") or not stories.others(s):
            return
        other = stories.others(s)[0]
        shown = self.browser.run("return speedlight.columns().map(([who]) => who)")
        self.assertLessEqual({other.actor, other.took.link.source}, set(shown))

    def lates(self, s, world):
        """The packets that came too late, each with its turns, which are links; how many they are."""
        late = world.late(s.number)
        if not late:
            return 0
        self.assertIn(f"Packets that came too late, missing from snapshot {s.number}: {len(late)}", self.browser.text("#panel"))
        wanted = [[t.actor, str(t.took.put.place + 1), str(t.place + 1)] for t in late]
        self.assertEqual([row[1:] for row in self.browser.rows()], wanted[:500])
        return len(late)

    def counts(self, s, rows, crossings, world):
        for row, counts, crossing in zip(rows, s.counts, crossings):
            self.assertEqual(row[1:3], [str(counts.packets), str(counts.size)])
            flying = [f"{c}: {n} ({size} bytes)" for c, (n, size) in counts.channels.items() if n]
            self.assertEqual(row[3], ", ".join(flying) or "–")
            self.assertEqual(row[4], str(crossing.place + 1))
        flight = sum(n for c in s.counts for n, _ in c.channels.values())
        self.assertIn(f"In flight across the cut: {flight}", self.browser.text("#panel"))
        values = self.browser.run("return [...document.querySelectorAll('.value')].map(v => [v.dataset.value, v.firstChild.textContent])")
        self.assertEqual(dict(values), {c.unit: str(c.packets) for c in s.counts})

    def cut_in_the_net(self, report, world):
        """At any turn the units that have reached the chosen snapshot are marked, and each shows its number."""
        chosen = next((s for s in report.snapshots if s.verdict != "not issued"), None)
        if chosen is None:
            return
        self.browser.click(f'#snapshots [data-snapshot="{chosen.number}"]')
        for turn in (0, len(report.trace) // 3, len(report.trace)):
            self.browser.run("speedlight.change({turn: arguments[0]})", turn)
            self.browser.settled()
            code = "return [...document.querySelectorAll('.unit')].map(u => [u.dataset.unit, u.classList.contains('reached'), u.querySelector('text').textContent])"
            for unit, reached, number in self.browser.run(code):
                crossing = world.crossing(unit, chosen.number)
                self.assertEqual(reached, crossing is not None and crossing.place < turn, (unit, turn))
                last = max((n for n, t in zip(world.adopted[unit], world.adopting[unit]) if t.place < turn), default=0)
                self.assertEqual(number, str(last) if last < 1000 else f"…{last % 100:02}")

    def scrubs(self, report):
        """The bar, the keys and the field lead to a turn, whose text is that of the trace."""
        trace = report.trace
        text = lambda turn: f"turn {turn:,} of {len(trace):,}: {trace[turn - 1] if turn else 'nothing yet'}"
        self.browser.click("#panel")
        self.browser.key("\ue011")
        self.browser.click("#start")
        self.assertEqual(self.browser.text("#now"), text(0))
        if not trace:
            return
        self.browser.click("#on")
        self.assertEqual(self.browser.text("#now"), text(1))
        self.browser.run("document.activeElement.blur()")
        self.browser.key("\ue014")
        self.assertEqual(self.browser.text("#now"), text(min(2, len(trace))))
        self.browser.key("\ue010")
        self.assertEqual(self.browser.text("#now"), text(len(trace)))
        for turn in {1, len(trace) // 2 or 1, len(trace)}:
            code = "const b = document.querySelector('#turn'); b.value = arguments[0]; b.dispatchEvent(new Event('input'))"
            self.browser.run(code, turn)
            self.browser.settled()
            self.assertEqual(self.browser.text("#now"), text(turn))
        middle = len(trace) // 2 or 1
        self.browser.find(f"turn {middle}")
        self.assertIn(f"Turn {middle}: {trace[middle - 1]}", self.browser.text("#panel"))

    def follows_packets(self, world):
        """The way of the first and the last packet, and its end."""
        ways = {}
        for message in world.messages:
            if message.packet is not None:
                ways.setdefault(message.packet.sent, []).append(message)
        for place in {0, len(ways) - 1} if ways else ():
            self.browser.find(f"packet {place}")
            way = list(ways.values())[place]
            rows = self.browser.rows()
            wanted = [[m.link.spelling, str(m.put.place + 1), "lost" if m.lost else str(m.take.place + 1) if m.take else "never"] for m in way]
            self.assertEqual([[row[0], row[2], row[3]] for row in rows], wanted)
            last = way[-1]
            end = "lost on the way" if last.lost else "under way" if last.take is None else last.take.dropped or "delivered"
            self.assertIn(end, self.browser.text("#panel"))
            marked = self.browser.run("return [...document.querySelectorAll('.wire.path')].map(w => speedlight.words.links[w.dataset.link][0])")
            self.assertEqual(set(marked), {m.link.spelling for m in way})

    def polls(self, path, report, world):
        """Some readings, as the program tells them."""
        readings = ((len(report.trace) // 3, 2), (3, 7), (0, 0))
        for start, gap in readings if len(report.trace) < 5000 else readings[:1]:
            told = program.run(self.program, ["poll", str(start), str(gap)], path.read_bytes())[1].decode().splitlines()
            self.browser.click('#tabs [data-tab="poll"]')
            for field, value in (("poll-start", start), ("poll-gap", gap)):
                self.browser.run("document.getElementById(arguments[0]).value = arguments[1]", field, value)
            self.browser.click("#poll-read")
            rows = [f"read {' '.join(row)}" for row in self.browser.rows()]
            self.assertEqual(rows, told[1 : 1 + len(world.net.units)])
            answer = self.browser.text("#poll-answer")
            if told[-2] == "whole":
                self.assertTrue(answer.startswith("whole"), answer)
            else:
                found = re.fullmatch(r"broken (.*) sent (\d+) received (\d+)", told[-2])
                self.assertTrue(answer.startswith("broken"), answer)
                for part in (f"on {found[1]}:", f"sent at turn {found[2]},", f"taken at turn {found[3]},"):
                    self.assertIn(part, answer)

    def test_addresses(self):
        _, page, report, world = built("too_late_packet", self.folder.name, self.program)
        self.browser.open(page, "#snapshot=2&turn=9&unit=in_a.0")
        self.assertIn("Snapshot 2", self.browser.text("#verdict"))
        self.assertTrue(self.browser.text("#now").startswith("turn 9 "))
        self.assertIn("in a.0, after turn 9", self.browser.text("#panel"))
        self.browser.open(page, "#poll=3,3")
        self.assertIn("Polling", self.browser.text("#panel"))
        self.browser.open(page, "#snapshot=99&turn=x&unit=nobody&packet=77&poll=1")
        self.assertIn("Snapshot 1", self.browser.text("#verdict"))
        self.browser.click('#snapshots [data-snapshot="2"]')
        self.browser.until("return location.hash.startsWith('#snapshot=2&turn=')")
        self.assertEqual(self.browser.told(), [])

    def test_the_keys_and_the_tabs(self):
        _, page, report, _ = built("leaf_spine_with_losses", self.folder.name, self.program)
        self.browser.open(page)
        failed = [s.number for s in report.snapshots if s.verdict != "consistent"]
        self.assertIn(f"Snapshot {failed[0]} failed", self.browser.text("#verdict"))
        self.browser.key("n")
        self.assertIn(f"Snapshot {failed[1]} failed", self.browser.text("#verdict"))
        self.browser.key("[")
        self.assertIn(f"Snapshot {failed[1] - 1}", self.browser.text("#verdict"))
        before = self.browser.run("return speedlight.state.turn")
        self.browser.key("c")
        self.assertEqual(self.browser.run("return document.getElementById('control').getAttribute('aria-pressed')"), "true")
        self.browser.key(" ")
        self.browser.until(f"return speedlight.state.turn > {before}")
        self.browser.key(" ")
        self.browser.find("in l0.2")
        self.assertIn("Last-seen numbers", self.browser.text("#panel"))
        self.browser.find("h0 h1")
        self.assertIn("from h0 to h1", self.browser.text("#panel"))
        self.browser.click("#theme")
        self.browser.click("#help-open")
        self.assertIn("Keys", self.browser.text("#help"))
        self.assertEqual(self.browser.told(), [])

    def test_clicks_in_the_pictures(self):
        """An arrow of the diagram chooses its packet, a row its turn, and a unit of the net itself."""
        _, page, report, world = built("two_in_flight", self.folder.name, self.program)
        self.browser.open(page)
        message = next(m for m in world.messages if m.packet is not None and m.packet.sent.seq == 1 and m.link.sort == "crossbar")
        x, y = self.browser.run("return speedlight.middleOf(arguments[0])", message.place)
        self.browser.point("#plot", x, y)
        self.assertIn("packet 1 from h0 to h1 with 0 from in a.0 over x0 to out a.1 put at turn", self.browser.text("#tip"))
        self.browser.point("#plot", x, y, click=True)
        self.assertIn("packet 1 from h0 to h1", self.browser.text("#panel"))
        rows = self.browser.rows()
        self.assertEqual([row[0] for row in rows], ["in a.0 host", "out a.1 x0", "host h1 net"])
        _, y = self.browser.run("return speedlight.middleOf(0)")
        self.browser.point("#plot", 60, y, click=True)
        self.assertIn(f"Turn {self.browser.run('return speedlight.state.turn')}: host h0 inject", self.browser.text("#panel"))
        self.browser.point('[data-unit="out a.1"] .body', click=True)
        self.assertIn("out a.1, after turn", self.browser.text("#panel"))
        self.assertEqual(self.browser.told(), [])

    def test_why(self):
        """The banner has a line for the unit and one for each of its channels, which begin with their names, and what would
        have been right; it is read within a minute. The report's line stands below what happened."""
        for name, lines in LINES.items():
            page = built(name, self.folder.name, self.program)[1]
            self.browser.open(page, "#snapshot=1")
            code = "return [...document.querySelectorAll('#verdict .why li')].map(l => [l.firstElementChild.textContent, getComputedStyle(l.firstElementChild).fontWeight])"
            self.assertEqual(self.browser.run(code), [[line[0], "700"] for line in lines])
            self.assertEqual(self.browser.text("#verdict .right"), RIGHT[name])
            self.assertLess(len(self.browser.run("return document.getElementById('verdict').innerText").split()), 110)
            for beyond in self.browser.run("return [...document.querySelectorAll('#verdict .beyond')].map(d => d.open)"):
                self.assertFalse(beyond)
            tips = self.browser.run("return [...document.querySelectorAll('#verdict abbr')].map(a => [a.textContent, a.dataset.tip])")
            self.assertTrue(all(said for _, said in tips))
            names = self.browser.run("return [...document.querySelectorAll('#verdict .why b')].map(a => [a.textContent, a.dataset.tip])")
            for channel, tip in names:
                self.assertIn({"init": "a control plane gives", "cable": "the channel over the cable", "host": "from the host"}.get(channel, "the channel over the crossbar"), tip)
            self.assertLessEqual({"initiation", "probe"} & set(re.findall(r"\w+", RIGHT[name])), {word for word, _ in tips})
            turns = self.browser.run("return [...document.querySelectorAll('#verdict .inline:not(.unit-name)')].map(b => b.textContent)")
            whole = " ".join([*(f"{line[1]} {line[2] or ''}" for line in lines), RIGHT[name]])
            self.assertEqual(turns, re.findall(r"turn \d+", whole))
            if self.browser.run("return document.querySelectorAll('#verdict .beyond').length"):
                self.browser.click("#verdict .beyond summary")
                self.assertTrue(self.browser.run("return document.querySelector('#verdict .beyond').open"))
            self.browser.click("#verdict .inline:not(.unit-name)")
            self.assertTrue(self.browser.text("#now").startswith(f"{turns[0]} of"))
            self.assertIn(f"T{turns[0][1:]}: ", self.browser.text("#panel"))
            self.browser.click("#to-story")
            self.assertIn("What happened, in order", self.browser.text("#panel"))
            self.browser.click('#tabs [data-tab="unit"]')
            unit = re.search(r"(in|out) \w+\.\d", lines[0][0])[0]
            self.assertIn(f"{unit}, after {turns[0]}, {'waiting' if name == 'dead_cable' else 'at fault in snapshot 1'}", self.browser.text("#panel h2"))

    def test_the_turns_of_a_failure_are_seen_together(self):
        """What lies between them is folded where there is no room for it; a turn in it, or a click, opens it."""
        _, page, report, world = built("ring_of_window_3", self.folder.name, self.program)
        self.browser.open(page)
        stories = Stories(world, read_input(Path(self.folder.name) / "ring_of_window_3.toml"), report.snapshots)
        heights = "return arguments[0].map(turn => speedlight.heightOf(turn))"
        for s in report.snapshots:
            self.browser.click(f'#snapshots [data-snapshot="{s.number}"]')
            keys, folds = stories.keys(s), self.browser.run("return speedlight.folds()")
            high = self.browser.run("return document.getElementById('plot').clientHeight")
            self.assertEqual(bool(folds), s.verdict != "consistent")
            self.assertTrue(all(0 <= height <= high for height in self.browser.run(heights, keys)))
            self.assertFalse([key for key in keys for a, b in folds if a <= key < b])
            self.assertEqual(self.browser.run("return speedlight.edges()"), [])
        self.browser.click('#snapshots [data-snapshot="1"]')
        start, end = self.browser.run("return speedlight.folds()[0]")
        inside = (start + end) // 2
        self.browser.point("#plot", 300, self.browser.run("return speedlight.heightOf(arguments[0])", inside))
        self.assertIn(f"turns {start + 1} to {end} are folded", self.browser.text("#tip"))
        self.browser.find(f"turn {inside + 1}")
        opened = self.browser.run("return speedlight.folds()")
        self.assertFalse([1 for a, b in opened if a <= inside < b])
        self.browser.run("document.activeElement.blur()")
        self.browser.key("z")
        self.assertEqual(self.browser.run("return speedlight.folds()"), [])
        self.browser.key("z")
        self.assertEqual(self.browser.run("return speedlight.folds()"), opened)
        self.browser.point("#plot", 300, self.browser.run("return speedlight.heightOf(arguments[0])", sum(opened[0]) // 2), click=True)
        self.assertEqual(self.browser.run("return speedlight.folds()"), opened[1:])
        _, page, _, world = built("too_late_packet", self.folder.name, self.program)
        self.browser.open(page, "#snapshot=1")
        self.assertEqual(self.browser.run("return [speedlight.edges(), speedlight.folds()]"), [[], []])
        self.assertEqual(self.browser.told(), [])

    def test_a_second_click_on_a_snapshot_changes_nothing(self):
        """The diagram stands as the new banner leaves room for it, whatever the height of the one before."""
        where = "return [speedlight.heightOf(0), speedlight.heightOf(speedlight.words.turns), speedlight.folds()]"
        for name in ("ring", "leaf_spine_with_losses"):
            _, page, report, _ = built(name, self.folder.name, self.program)
            self.browser.open(page)
            heights = set()
            for s in [*report.snapshots, *reversed(report.snapshots)]:
                self.browser.click(f'#snapshots [data-snapshot="{s.number}"]')
                heights.add(self.browser.run("return document.getElementById('plot').clientHeight"))
                once = self.browser.run(where)
                self.browser.click(f'#snapshots [data-snapshot="{s.number}"]')
                self.assertEqual(self.browser.run(where), once, s.line)
            self.assertGreater(len(heights), 1)
            self.assertEqual(self.browser.told(), [])

    def test_who_sent_nothing_and_the_lists(self):
        """The sender that the sentence names has its column, a name above a column chooses its unit, and more units are a link."""
        path, page, report, world = built("ring", self.folder.name, self.program)
        self.browser.open(page)
        stories = Stories(world, read_input(path), report.snapshots)
        pending = [s for s in report.snapshots if s.verdict == "pending"]
        self.assertEqual(len(pending), 2)
        for s in pending:
            self.browser.click(f'#snapshots [data-snapshot="{s.number}"]')
            shown = self.browser.run("return speedlight.columns().map(([who]) => who)")
            sender = world.net.sender(s.unit, s.channel)
            self.assertLessEqual({s.unit, sender}, set(shown))
            folds = self.browser.run("return speedlight.folds()")
            self.assertFalse([key for key in stories.keys(s) for a, b in folds if a <= key < b])
            for name in (sender, s.unit):
                x, y = next([x, y] for who, x, y in self.browser.run("return speedlight.columns()") if who == name)
                self.browser.point("#heads", x, y)
                self.assertIn(name, self.browser.text("#tip"))
                self.browser.point("#heads", x, y, click=True)
                self.assertIn(f"{name}, after turn", self.browser.text("#panel h2"))
        waiting = stories.waiting_too(pending[1])
        self.browser.run("[...document.querySelectorAll('#verdict .inline')].find(a => / more units$/.test(a.textContent)).click()")
        self.browser.settled()
        inside = """const [a, b] = ['units', 'panel'].map(id => document.getElementById(id).getBoundingClientRect());
            return a.top >= b.top - 1 && a.bottom < b.bottom"""
        self.assertTrue(self.browser.run(inside))
        self.assertEqual([row[0] for row in self.browser.rows() if "waits too" in row[0]], [f"{unit} waits too" for unit in waiting])
        lost = next(m for m in world.messages if m.lost and m.kind == "init")
        self.browser.find(f"turn {lost.put.place + 1}")
        self.assertIn(f"initiation {lost.stamp} to {lost.link.target}, lost", self.browser.text("#panel"))
        self.assertEqual(self.browser.told(), [])

    @staticmethod
    def covering(boxes):
        """The pairs of labels of which one lies on the other."""
        meet = lambda a, b: a[0] < b[2] and b[0] < a[2] and a[1] < b[3] and b[1] < a[3]
        return [(said, other) for i, (said, box) in enumerate(boxes) for other, there in boxes[:i] if meet(box, there)]

    def test_labels_stand_in_order(self):
        """In the diagram no label is cut off or lies on another one, and those of turns out of view stand as the turns do."""
        for name in ("ring", "ring_of_window_3", "leaf_spine_with_losses", "line"):
            _, page, report, _ = built(name, self.folder.name, self.program)
            self.browser.open(page)
            for s in report.snapshots:
                self.browser.click(f'#snapshots [data-snapshot="{s.number}"]')
                wide, high = self.browser.run("const p = document.getElementById('plot'); return [p.clientWidth, p.clientHeight]")
                boxes = self.browser.run("return speedlight.labels()")
                self.assertFalse([said for said, (l, t, r, b) in boxes if l < 0 or t < 0 or r > wide or b > high], s.line)
                self.assertEqual(self.covering(boxes), [], s.line)
                self.assertEqual([said for said, _ in boxes if said.startswith("reached") and s.verdict == "skipped"], [])
            for turn in (0, len(report.trace)):
                self.browser.find(f"turn {turn}")
                told = [int(re.search(r"\d+$", said)[0]) for said in self.browser.run("return speedlight.edges()")]
                self.assertEqual(told, sorted(told, reverse=turn == 0))
                boxes = self.browser.run("return [...speedlight.labels(), ...speedlight.edgeBoxes()]")
                self.assertEqual(self.covering(boxes), [])
            self.assertEqual(self.browser.told(), [])

    def test_tips_words_and_colours(self):
        """The page has its own tips, the help opens at its top and has a glossary, and what failed has one colour."""
        _, page, report, _ = built("ring_of_window_3", self.folder.name, self.program)
        self.browser.open(page)
        self.assertEqual({"skipped", "miscredited"}, {s.verdict for s in report.snapshots} - {"consistent"})
        self.assertEqual(self.browser.run("return document.querySelectorAll('body [title]').length"), 0)
        failed = "[...document.querySelectorAll('#snapshots .skipped, #snapshots .miscredited')]"
        colours = f"return [...new Set({failed}.map(b => getComputedStyle(b).color))].length"
        self.assertEqual(self.browser.run(colours), 1)
        for place, part in (("#verdict abbr", "gives an in unit the number"), ("#verdict .why b", "the channel over the crossbar"), ("#fold", "Folds what lies"), ("#help-open", "Words")):
            self.browser.point(place)
            self.assertIn(part, self.browser.text("#tip"))
            inside = """const b = document.getElementById('tip').getBoundingClientRect();
                return b.left >= 0 && b.right <= innerWidth && b.top >= 0 && b.bottom <= innerHeight"""
            self.assertTrue(self.browser.run(inside))
        looks = self.browser.run("""const look = (n) => { const s = getComputedStyle(document.querySelector(n)); return [s.color, s.textDecorationLine]; };
            return [look('#verdict .why .unit-name'), look('#verdict .why .inline:not(.unit-name)')]""")
        self.assertEqual(looks[0], looks[1])
        self.browser.size(1280, 500)
        self.browser.click("#help-open")
        self.assertEqual(self.browser.run("return document.getElementById('help').scrollTop"), 0)
        for word in ("initiation", "probe", "x0", "Ring", "no cut: 5 not reached", "cut 5?"):
            self.assertIn(word, self.browser.run("return [...document.querySelectorAll('#glossary dt')].map(d => d.textContent)"))
        self.browser.size(1280, 800)
        self.assertEqual(self.browser.told(), [])

    def test_small_text_is_left_out(self):
        """Of a large net too: what is written in the picture has ten pixels, numbers nine, or isn't there; who is at fault has a name."""
        code = """const size = (t) => parseFloat(getComputedStyle(t).fontSize);
            return [...document.querySelectorAll('#picture text')].filter(t => t.textContent && t.style.display !== 'none' && size(t))
            .map(t => [t.textContent, size(t) * t.getScreenCTM().a])"""
        for name in ("fat_tree", "ring_of_window_3", "leaf_spine_with_losses"):
            page, report = built(name, self.folder.name, self.program)[1:3]
            self.browser.open(page)
            drawn = self.browser.run(code)
            self.assertEqual([(said, size) for said, size in drawn if size < (8.9 if said.isdecimal() else 9.9)], [], name)
            unit = next(s.unit for s in report.snapshots if s.unit)
            self.assertIn(unit, [said for said, _ in drawn])
            self.assertEqual(self.browser.told(), [])

    def test_nothing_is_cut_off_or_stretched(self):
        """The head, the rows, and the port names of some nets, which lie on no unit and on no other name; sizes change."""
        code = """
            const boxes = (n) => [...document.querySelectorAll(n)].map(e => e.getBoundingClientRect()), names = boxes('#picture .side'), units = boxes('#picture .unit .body');
            const meet = (a, b) => a.left < b.right - 1 && b.left < a.right - 1 && a.top + 2 < b.bottom - 2 && b.top + 2 < a.bottom - 2;
            return [names.length, names.filter((a, i) => names.some((b, j) => i < j && meet(a, b)) || units.some(b => meet(a, b))).length]"""
        for name in ("dead_cable", "too_late_packet", "lost_initiation", "line"):
            page, _, world = built(name, self.folder.name, self.program)[1:]
            self.browser.open(page)
            self.assertEqual(self.browser.run(code), [len(world.net.units), 0], name)
            self.assertTrue(self.browser.run("const s = document.getElementById('summary'); return s.scrollWidth <= s.clientWidth"))
            chosen = "const b = document.querySelector('#snapshots [aria-pressed=true]'), m = document.createElement('i'); m.className = b.className; document.body.append(m); const c = [getComputedStyle(b).color, getComputedStyle(m).color]; m.remove(); return c"
            self.assertEqual(len(set(self.browser.run(chosen))), 1)
            self.assertTrue(self.browser.run("return document.getElementById('marks').open"))
        try:
            self.browser.size(1280, 700)
            self.browser.settled()
            self.assertEqual(*self.browser.run("const p = document.getElementById('plot'); return [p.height, p.clientHeight]"))
        finally:
            self.browser.size(1280, 800)

    def test_a_phone(self):
        """One part at a time, and no text is cut off: neither in the page nor in the rows of the diagram."""
        shown = "return ['details', 'net', 'time'].filter(n => document.getElementById(n).getBoundingClientRect().height > 100)"
        cut = """return [...document.querySelectorAll('body *')].filter(e => e.clientWidth && /hidden|clip/.test(getComputedStyle(e).overflowX)
            && e.scrollWidth > e.clientWidth + 1).map(e => `${e.id} ${e.textContent.slice(0, 40)}`)"""
        record = """const p = CanvasRenderingContext2D.prototype, f = p.fillText; window.drawn = [];
            p.fillText = function (said, ...more) { window.drawn.push(said); f.call(this, said, ...more); };"""
        try:
            self.browser.size(390, 844)
            for name in ("dead_cable", "leaf_spine_with_losses"):
                _, page, report, _ = built(name, self.folder.name, self.program)
                self.browser.open(page)
                self.browser.run(record)
                for part in ("details", "net", "time"):
                    self.browser.click(f'#switch [data-show="{part}"]')
                    self.assertEqual(self.browser.run(shown), [part])
                    self.assertEqual(self.browser.run(cut), [])
                turn = self.browser.run("return speedlight.state.turn")
                self.assertIn(report.trace[turn - 1], self.browser.run("return window.drawn"))
                self.assertFalse([said for said in self.browser.run("return window.drawn") if "…" in said])
                self.assertLessEqual(self.browser.run("return document.documentElement.scrollWidth"), 390)
                self.assertEqual(self.browser.told(), [])
        finally:
            self.browser.size(1280, 800)


def pictures(folder):
    """The screenshots of the documents, with few colours."""
    from PIL import Image

    with tempfile.TemporaryDirectory() as scratch, Browser() as browser:
        for name, (run_name, address, width, height, theme, code) in PICTURES.items():
            page = built(run_name, scratch, program.find())[1]
            browser.size(width, height)
            browser.theme(theme)
            browser.open(page, address)
            if code:
                browser.run(code)
            browser.settled()
            image = Image.open(io.BytesIO(browser.picture())).convert("RGB")
            image.quantize(160, method=Image.Quantize.FASTOCTREE, dither=Image.Dither.NONE).save(Path(folder) / f"{name}.png", optimize=True)


if __name__ == "__main__":
    if sys.argv[1:2] == ["--pictures"]:
        pictures(sys.argv[2])
    else:
        unittest.main()
