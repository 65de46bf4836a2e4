"""What is said of snapshots that failed or aren't finished, over many runs: it is checked against the turns by other means."""

import random
import re
import subprocess
import sys
import tempfile
import unittest
from pathlib import Path

from shared import EXAMPLES, TOP

from speedlight_tools.banners import Banner
from speedlight_tools.channels import Channels, a_number, joined
from speedlight_tools.inputs import read_input
from speedlight_tools.replay import replay
from speedlight_tools.reports import read_report
from speedlight_tools.stories import Stories, begun_again, moved_on, of_retries

# Three switches in a line or in a ring, each with a host.
LINE = """device = [{name = "s0", ports = 2}, {name = "s1", ports = 3}, {name = "s2", ports = 2}]
cable = [{a = "s0.1", b = "s1.1"}, {a = "s1.2", b = "s2.1"}]
"""
RING = """device = [{name = "s0", ports = 3}, {name = "s1", ports = 3}, {name = "s2", ports = 3}]
cable = [{a = "s0.1", b = "s1.2"}, {a = "s1.1", b = "s2.2"}, {a = "s2.1", b = "s0.2"}]
"""
REST = """host = [{name = "h0", at = "s0.0"}, {name = "h1", at = "s1.0"}, {name = "h2", at = "s2.0"}]
flow = [{from = "h0", to = "h1", count = 4, bytes = 100, hops = 3}, {from = "h1", to = "h2", count = 4, bytes = 100, hops = 3}]
"""
# The initiations 1 of both units from which `in a.1` could hear of snapshot 1 are lost.
TWO_WAYS = """device = [{name = "a", ports = 2}, {name = "b", ports = 2}]
cable = [{a = "a.1", b = "b.0"}]
host = [{name = "h0", at = "a.0"}, {name = "h1", at = "b.1"}]
snapshot = {bits = 2, window = 2, ring = 2, count = 2, retries = 0}
loss = {drop = [{link = "in b.0 init", n = 1}, {link = "in a.1 init", n = 1}]}
"""


def ran(text):
    """The stories of a run of this input, and its verdicts; the turns are those of bench/replay.py."""
    told = subprocess.run([sys.executable, TOP / "bench" / "replay.py", "step", "--trace"], input=text.encode(), capture_output=True, check=True)
    report = read_report(told.stdout.decode())
    with tempfile.TemporaryDirectory() as folder:
        path = Path(folder) / "run.toml"
        path.write_text(text)
        source = read_input(path)
    return Stories(replay(source, report.trace), source, report.snapshots), report.snapshots


def drawn(seed):
    """An input by chance, in which much is lost."""
    draw = random.Random(seed)
    loss = {"init": draw.choice([0, 60, 200]), "cable": draw.choice([0, 30, 100]), "crossbar": draw.choice([0, 50, 200])}
    count, credits = draw.choice([3, 5]), draw.choice([1, 1, 2])
    words = ", ".join(f"{key} = {value}" for key, value in loss.items())
    text = draw.choice([LINE, RING]) + REST
    text += f"snapshot = {{bits = 3, window = 3, ring = 3, count = {count}, retries = {draw.choice([0, 1])}, credits = {credits}}}\n"
    entries = ", ".join(f'"pass {draw.choice([1, 1, 2])}", "observer issue"' for _ in range(count))
    return f"{text}loss = {{seed = {seed}, {words}}}\nscript = {{entries = [{entries}]}}\n"


class Sentences(unittest.TestCase):
    def test_each_channel_of_a_unit_that_skips(self):
        stories, snapshots = ran(TWO_WAYS)
        self.assertEqual(snapshots[0].line, "snapshot 1 inconsistent in a.1 skipped to 2")
        said = [line.text for line in Banner(stories, snapshots[0]).lines()]
        self.assertEqual(
            said,
            [
                "in a.1 goes from 0 to 2 at turn 18, by initiation 2: no 1 came before.",
                "init from control a: initiation 1 is lost at turn 2.",
                "cable from out b.0: still at 0, as initiation 1 to in b.0 is lost at turn 6 (goes over 1 only at turn 27).",
                "in b.0 failed it too: goes over 1 at turn 25; so does out b.0.",
            ],
        )
        right = Banner(stories, snapshots[0]).right()
        self.assertTrue(right.startswith("Right if initiation 1 (turn 2), or to in b.0 (turn 6), had come before turn 18; and a 1 to in b.0"), right)

    def test_many_channels_have_few_clauses(self):
        """Of a switch with five ports, on which probes are lost or late."""
        text = """device = [{name = "a", ports = 5}]
host = [{name = "h0", at = "a.0"}, {name = "h1", at = "a.1"}, {name = "h2", at = "a.2"}, {name = "h3", at = "a.3"}, {name = "h4", at = "a.4"}]
snapshot = {bits = 2, window = 2, ring = 2, count = 2, retries = 0}
"""
        lost = ", ".join(f'{{link = "out a.0 x{q}", n = 1}}' for q in range(1, 5))
        entries = [*["observer issue"] * 2, *["control a begin"] * 2, *["in a.0 init"] * 2, "out a.0 x0", *(f"in a.{q} init" for q in range(1, 5))]
        stories, snapshots = ran(f'{text}loss = {{drop = [{{link = "out a.0 x0", n = 1}}, {lost}]}}\nscript = {{entries = {entries}}}\n')
        self.assertEqual(snapshots[0].line, "snapshot 1 inconsistent out a.0 skipped to 2")
        said = [line.text for line in Banner(stories, snapshots[0]).lines()]
        self.assertEqual(said[1:3], ["x0 from in a.0: probe 1 is lost at turn 5.", "x1, x2, x3 and x4 bring none: their units are still below 1."])
        steps = " ".join(step.words for step in stories.steps(snapshots[0]))
        for q in range(1, 5):
            self.assertIn(f"A 1 doesn't come to out a.0 over x{q} from in a.{q}: that unit is still at 0 itself", steps)

    def test_a_host_brings_no_numbers(self):
        stories, snapshots = ran((EXAMPLES / "lost_initiation.toml").read_text())
        banner = Banner(stories, snapshots[0])
        self.assertIn("host h0 sends no numbers.", [line.text for line in banner.lines()])
        self.assertEqual(banner.right(), "Right if initiation 1 (turn 2) had come before turn 5; and a 1 to out a.0 before turn 6.")

    def test_what_moved_the_unit_on(self):
        stories, snapshots = ran((EXAMPLES / "too_late_packet.toml").read_text())
        self.assertEqual(stories.keys(snapshots[0]), [1, 9, 10])
        banner = Banner(stories, snapshots[0])
        moved = banner.lines()[2]
        self.assertEqual(moved.text.partition(" (")[0], "x1 from in a.1: probe 2 moved the unit on to 2 at turn 10")
        self.assertEqual(moved.why, "snapshot 1 was issued at turn 3, snapshot 2 at turn 4")
        told = "Right if the packet had come before turn 10, or with credits = 2."
        self.assertEqual(banner.right(), told, "its sender could not know of snapshot 1 yet")
        stories, snapshots = ran((EXAMPLES / "too_late_packet.toml").read_text().replace("retries = 0", "retries = 0, credits = 2"))
        self.assertEqual((snapshots[0].verdict, Banner(stories, snapshots[0]).right()), ("consistent", None))

    def test_what_a_unit_waits_for(self):
        stories, snapshots = ran((EXAMPLES / "dead_cable.toml").read_text())
        banner = Banner(stories, snapshots[0])
        said = [line.text for line in banner.lines()]
        self.assertEqual(said[0], "in a.1 is at 1 itself, but waits for a 1 over the cable: nothing came.")
        self.assertEqual(said[1:3], ["cable from out b.0: probe 1 is lost at turn 10.", "init from control a: brought 1 at turn 5."])
        last = stories.steps(snapshots[0])[-1].words
        self.assertIn("The run ends, after turn 89, while in a.1 still waits for a 1 over the cable from out b.0", last)
        self.assertEqual(banner.right(), "Right if probe 1 (turn 10) had come.")

    def test_what_the_retries_began(self):
        """A retry begins the newest snapshot, and not the one that waits."""
        text = (EXAMPLES / "dead_cable.toml").read_text()
        stories, snapshots = ran(re.sub(r"(window|bits|ring|count|retries) = \d+", lambda m: f"{m[1]} = 2", text))
        self.assertEqual([s.verdict for s in snapshots], ["pending", "pending"])
        turn = stories.resends[2][0].place + 1
        steps = [step.words for step in stories.steps(snapshots[0])]
        self.assertIn("The observer begins again, but with snapshot 2, its newest, not 1, as not all is collected.", steps)
        self.assertIn("(begun again: snapshot 2 at turn", steps[-1])
        self.assertIn(str(turn), steps[-1])
        said = [line.text for line in Banner(stories, snapshots[0]).lines()]
        self.assertRegex(" ".join(said), rf"retries began 2, not 1 \(turn {turn}\)")
        self.assertIn("The observer begins snapshot 2 once more, as not all is collected.", [s.words for s in stories.steps(snapshots[1])])
        again = {2: [stories.world.turns[4], stories.world.turns[6]], 3: [stories.world.turns[9]]}
        self.assertEqual(begun_again(again), " (begun again: snapshot 2 at turns 5 and 7, snapshot 3 at turn 10)")

    def test_numbers_as_they_are_spoken(self):
        for n in (8, 11, 18, 80, 88, 800, 8000, 11000, 18500, 80000):
            self.assertEqual(a_number(n), f"an {n}")
        for n in (1, 2, 7, 10, 12, 81 - 10, 100, 110, 118, 1100, 1800, 10000, 99999, 100000):
            self.assertEqual(a_number(n), f"a {n}")
        self.assertEqual([joined(words) for words in ([], ["a"], ["a", "b"], ["a", "b", "c"])], ["", "a", "a and b", "a, b and c"])

    def test_retries_in_words(self):
        cases = {
            (0, 0): "the input allows no retries",
            (0, 1): "the one retry was not used",
            (1, 1): "the one retry is used up",
            (1, 3): "1 of 3 retries was used",
            (2, 3): "2 of 3 retries were used",
            (3, 3): "all 3 retries are used up",
        }
        for (used, allowed), words in cases.items():
            self.assertEqual(of_retries(used, allowed), words)


class Runs(unittest.TestCase):
    """What is said of each snapshot of runs by chance is so in their turns."""

    def test_forty_runs(self):
        seen = {}
        for seed in range(1, 41):
            stories, snapshots = ran(drawn(seed))
            for snapshot in snapshots:
                with self.subTest(seed=seed, snapshot=snapshot.line):
                    seen[snapshot.verdict] = seen.get(snapshot.verdict, 0) + 1
                    check = getattr(self, f"told_of_{snapshot.verdict.replace(' ', '_')}")
                    banner = Banner(stories, snapshot)
                    check(stories, snapshot, banner, " ".join(line.text for line in banner.lines()))
                    self.assertLess(len([w for line in banner.lines() for w in f"{line.name} {line.words}".split()]), 110)
        for verdict in ("skipped", "miscredited", "pending", "consistent"):
            self.assertGreater(seen.get(verdict, 0), 3, seen)

    def told_of_consistent(self, stories, snapshot, banner, said):
        self.assertEqual((said, banner.right()), ("No unit took before the cut what was sent after it.", None))

    def told_of_not_issued(self, stories, snapshot, banner, said):
        self.assertIn("The observer never began it", said)

    def told_of_skipped(self, stories, snapshot, banner, said):
        """The turn, and each link over which the unit hears of numbers with why none came over it."""
        world, k, unit = stories.world, snapshot.number, snapshot.unit
        turn = next(t for t in world.turns if t.actor == unit and t.before < k < t.id)
        self.assertIn(f"{unit} goes from {turn.before} to {turn.id} at turn {turn.place + 1}, by ", said)
        reasons = {r.link.spelling: r for r in stories.reasons(snapshot)}
        sorts = ("init", "cable", "crossbar")
        self.assertEqual(set(reasons), {k for k, link in world.net.links.items() if link.target == unit and link.sort in sorts})
        steps = " ".join(step.words for step in stories.steps(snapshot))
        named = {name for line in banner.lines() for name in re.findall(r"init|cable|x\d+", line.name)}
        self.assertLessEqual({link.rpartition(" ")[2] for link in reasons}, named)
        for reason in reasons.values():
            self.assertIn(reason.link.source, steps)
            self.reason(world, reason, k, turn.place)
        right = banner.right()
        self.assertIn(f"before turn {turn.place + 1}", right)
        for reason in reasons.values():
            lost = reason.message or reason.root
            if lost is not None:
                self.assertRegex(right, rf"\(turns? [^)]*\b{lost.put.place + 1}\b")
        self.others(stories, snapshot, said, right)

    def others(self, stories, snapshot, said, right):
        """The first other unit that failed it is named, with what it would have needed, and how many more there are."""
        turns = [t for t in (*stories.world.skips(snapshot.number), *stories.world.late(snapshot.number)) if t.actor != snapshot.unit]
        units = list(dict.fromkeys(t.actor for t in turns))
        self.assertEqual(bool(units), "failed it too" in said)
        if units:
            self.assertRegex(said, rf"{re.escape(units[0])} failed it too: .*\bturn {turns[0].place + 1}\b")
            self.assertRegex(right, rf"; and .* to {re.escape(units[0])} before turn \d+")
            self.assertEqual(f"for {len(units) - 1} more unit" in right, len(units) > 1)
            steps = {step.place for step in stories.steps(snapshot)}
            self.assertIn(turns[0].place, steps)

    def reason(self, world, reason, k, until):
        """The reason is so."""
        sent = [m for m in world.messages if m.link is reason.link and m.stamp == k and m.put.place < until]
        sender = [t for t in world.turns if t.actor == reason.link.source and t.place < until]
        at = sender[-1].id if sender else 0
        place = lambda what: int(re.search(rf"{what} at turn (\d+)", reason.clause)[1]) - 1
        if reason.kind == "lost":
            self.assertTrue(sent and all(m.lost for m in sent))
            self.assertEqual(place("is lost"), sent[0].put.place)
        elif reason.kind == "late":
            late = next(m for m in sent if not m.lost)
            self.assertIn(f"sent at turn {late.put.place + 1}", reason.clause)
            self.assertTrue(late.take is None or late.take.place == place("comes only") > until)
        else:
            self.assertEqual(sent, [])
        if reason.kind == "below":
            self.assertTrue(at < k and f"still at {at} itself" in reason.clause)
        elif reason.kind == "over":
            turn = world.turns[place("goes over \\d+ itself")]
            self.assertTrue(turn.before < k < turn.id and turn.actor == reason.link.source and turn.place < until)
        elif reason.kind == "silent":
            turn = world.turns[place(f"reaches {k}")]
            self.assertTrue(turn.before < k == turn.id and turn.actor == reason.link.source and turn.place < until)
        elif reason.kind == "not begun":
            self.assertTrue(reason.link.sort == "init" and reason.place >= until)
        if reason.root is not None:
            self.assertTrue(reason.root.lost and reason.root.stamp == k and reason.root.put.place < until)
            passes = ", which passes probes on," if reason.root.kind == "init" else ""
            self.assertIn(f"to {reason.root.link.target}{passes} is lost at turn {reason.root.put.place + 1}", reason.told)

    def told_of_miscredited(self, stories, snapshot, banner, said):
        """The packet, the turn that moved its unit on too far, what it took there, and when both snapshots were issued."""
        world, k, unit, credits = stories.world, snapshot.number, snapshot.unit, stories.source.snapshot["credits"]
        came = next(t for t in world.late(k) if t.actor == unit)
        sent, on = came.took.put, moved_on(world, snapshot)
        self.assertLessEqual({sent.place, on.place, came.place}, set(stories.keys(snapshot)))
        issues = [t.place + 1 for t in world.turns if t.actor == "observer" and t.choice == "issue"]
        above = [t for t in world.turns if t.actor == unit and t.id > max(t.before, k)]
        self.assertTrue(on is above[credits - 1] and came.actor == unit and came.took in sent.puts)
        begin = rf"from {re.escape(sent.actor)}: sent it at turn {sent.place + 1}, still at {sent.id}( \([^()]*\))?"
        self.assertRegex(said, begin)
        self.behind(stories, snapshot, sent, re.search(begin, said)[1], banner.right())
        for words in (
            f"too late, at turn {came.place + 1}: already at {came.id}",
            f"from {on.took.link.source}: ",
            f"moved the unit on to {on.id} at turn {on.place + 1}",
            f"snapshot {k} was issued at turn {issues[k - 1]}, snapshot {on.id} at turn {issues[on.id - 1]}",
        ):
            self.assertIn(words, said)
        saved = len({t.id for t in world.turns if t.actor == unit and t.place <= came.place and t.id >= k})
        right = banner.right()
        self.assertIn(f"before turn {on.place + 1}", right)
        self.assertEqual(f"with credits = {saved}" in right, saved <= 4)
        self.others(stories, snapshot, said, right)

    def behind(self, stories, snapshot, sent, why, right):
        """Why the sender had not reached the number: its own initiation, or a message over its cable, was lost or had not come."""
        begins = [t.place for t in stories.world.turns if t.actor == "observer" and t.choice == "issue"]
        for found in re.finditer(r"comes only at turn (\d+)|is lost at turn (\d+)", why or ""):
            turn = stories.world.turns[int(found[1] or found[2]) - 1]
            message = turn.took if found[1] else next(m for m in turn.puts if m.link.target == sent.actor)
            self.assertEqual((message.lost, message.link.target), (found[2] is not None, sent.actor))
            self.assertTrue(message.take is None or message.take.place > sent.place)
            self.assertIn(f", or {a_number(snapshot.number)} to {sent.actor} before turn {sent.place + 1}", right)
        if begins[snapshot.number - 1] > sent.place:
            self.assertNotIn(f"to {sent.actor} before turn", right.partition(";")[0])

    def told_of_pending(self, stories, snapshot, banner, said):
        world, k, unit = stories.world, snapshot.number, snapshot.unit
        if snapshot.channel == "id":
            self.assertIn(f"{unit} stays at {snapshot.other}", said)
        else:
            self.assertIn(f"{unit} is at {world.ids[unit]} itself, but waits for {a_number(k)} over", said)
            self.assertIn(world.net.sender(unit, snapshot.channel), said)
        named = {name for line in banner.lines() for name in re.findall(r"init|cable|x\d+", line.name)}
        self.assertLessEqual({link.spelling.rpartition(" ")[2] for link in stories.channels.links(unit)}, named)
        for found in re.finditer(r"(init|cable|x\d+) from [^:.]+\.?\d*: brought (\d+) at turn (\d+)", said):
            came = world.turns[int(found[3]) - 1]
            self.assertEqual((came.actor, came.choice, str(came.took.stamp)), (unit, found[1], found[2]))
            self.assertGreaterEqual(came.took.stamp, k)
        right = banner.right()
        self.assertTrue(right.startswith("Right if "))
        for message in stories.missed(snapshot):
            self.assertTrue(message.lost and message.stamp >= k)
            if message.stamp == k and len(stories.missed(snapshot)) < 4:
                self.assertEqual(bool(re.search(rf"\(turns? [^)]*\b{message.put.place + 1}\b", right)), self.brings(world, snapshot, message), right)

    def brings(self, world, snapshot, message):
        """Whether the message would have brought the number to the unit: over a channel that waits, or by its sender's probes."""
        waiting = [link for name, link in world.net.links.items() if link.target == snapshot.unit and (snapshot.channel == "id" or name.endswith(f" {snapshot.channel}"))]
        if message.link in waiting:
            return True
        senders = {link.source for link in waiting}
        firsts = {sender.replace("out ", "in ", 1): sender for sender in senders}
        if message.kind == "init":
            return message.link.target in firsts
        return firsts.get(message.link.source) == message.link.target and message.link.sort == "crossbar"


if __name__ == "__main__":
    unittest.main()
