"""Reads reports and traces of `speedlight step`."""

from dataclasses import dataclass, field


class NoReport(Exception):
    """The text is no report or no trace; the message says where it departs from one."""


@dataclass
class Counts:
    """What a unit had counted before the cut, and what was in flight on its channels: packets and bytes."""

    unit: str
    packets: int
    size: int
    channels: dict = field(default_factory=dict)


@dataclass
class Snapshot:
    """A verdict: consistent, skipped, miscredited, pending or not issued.

    `unit` is the unit at fault, `channel` the channel that lags (`id` for the unit's own number), and
    `number` the number that the line ends with. `counts` is the list of the units where it is consistent.
    """

    number: int
    verdict: str
    unit: str = ""
    channel: str = ""
    other: int = None
    counts: list = field(default_factory=list)
    line: str = ""

    def of(self, unit):
        return next((c for c in self.counts if c.unit == unit), None)


@dataclass
class Report:
    devices: int = 0
    units: int = 0
    hosts: int = 0
    wanted: int = 0
    issued: int = 0
    collected: int = 0
    resent: int = 0
    snapshots: list = field(default_factory=list)
    host_counts: dict = field(default_factory=dict)
    drops: dict = field(default_factory=dict)
    lost: dict = field(default_factory=dict)
    trace: list = None

    def consistent(self):
        return [s for s in self.snapshots if s.verdict == "consistent"]


VERDICTS = ("consistent", "skipped", "miscredited", "pending", "not issued")


# The program's numbers have at most 20 digits.
MOST_DIGITS = 20


def is_number(word):
    return word.isdecimal() and word.isascii() and len(word) <= MOST_DIGITS


class Lines:
    """The lines of a text, taken one at a time, with their numbers."""

    def __init__(self, text):
        self.lines, self.at = text.splitlines(), 0

    def peek(self):
        return self.lines[self.at].split(" ") if self.at < len(self.lines) else []

    def take(self, *shape):
        """The next line's numbers, where it has the words of the shape; None in a shape stands for a number."""
        words = self.peek()
        if len(words) != len(shape) or any(s is not None and s != w for s, w in zip(shape, words)):
            raise self.fault("expected `" + " ".join("N" if s is None else s for s in shape) + "`")
        self.at += 1
        return [self.number(w) for s, w in zip(shape, words) if s is None]

    def number(self, word):
        if not is_number(word):
            self.at -= 1
            raise self.fault(f"`{word[:40]}` is no number")
        return int(word)

    def fault(self, message):
        line = self.lines[self.at] if self.at < len(self.lines) else ""
        got = f"`{line[:80]}{'..' if len(line) > 80 else ''}`" if self.at < len(self.lines) else "the end"
        return NoReport(f"line {self.at + 1}: {message}, found {got}")


def read_report(text):
    """The report in a text, with the trace where one follows it."""
    lines = Lines(text)
    report = Report()
    lines.take("speedlight", "1")
    report.devices, report.units, report.hosts = lines.take("network", "devices", None, "units", None, "hosts", None)
    shape = ("observer", "count", None, "issued", None, "collected", None, "resent", None)
    report.wanted, report.issued, report.collected, report.resent = lines.take(*shape)
    for _ in range(report.wanted):
        report.snapshots.append(read_snapshot(lines, report.units, len(report.snapshots) + 1))
    while lines.peek()[:1] == ["host"]:
        name = (lines.peek() + [""])[1]
        report.host_counts[name] = tuple(lines.take("host", name, "sent", None, "delivered", None))
    numbers = lines.take("drops", "bad", None, "expired", None, "noroute", None)
    report.drops = dict(zip(("bad", "expired", "noroute"), numbers))
    numbers = lines.take("lost", "cable", None, "crossbar", None, "init", None, "notice", None)
    report.lost = dict(zip(("cable", "crossbar", "init", "notice"), numbers))
    lines.take("end")
    if lines.at < len(lines.lines):
        report.trace = read_trace(lines)
    return report


def read_snapshot(lines, units, number):
    words = lines.peek()
    line = " ".join(words)
    if words[:2] != ["snapshot", str(number)] or len(words) < 3:
        raise lines.fault(f"expected `snapshot {number} ..`")
    if words[2:] == ["consistent"]:
        lines.at += 1
        return Snapshot(number, "consistent", counts=[read_counts(lines) for _ in range(units)], line=line)
    shapes = {
        "inconsistent": {("skipped", "to"): "skipped", ("miscredited", "by"): "miscredited"},
        "pending": None,
        "not": None,
    }
    kind, rest = words[2], words[3:]
    if kind not in shapes or not is_number(words[-1]):
        raise lines.fault("expected a verdict")
    other = int(words[-1])
    found = None
    if kind == "inconsistent" and len(rest) == 5 and tuple(rest[2:4]) in shapes[kind]:
        found = Snapshot(number, shapes[kind][tuple(rest[2:4])], " ".join(rest[:2]), "", other)
    elif kind == "pending" and len(rest) == 4:
        found = Snapshot(number, "pending", " ".join(rest[:2]), rest[2], other)
    elif kind == "not" and rest[:1] == ["issued"] and len(rest) in (2, 4):
        found = Snapshot(number, "not issued", " ".join(rest[1:-1]), "", other)
    if found is None:
        raise lines.fault("expected a verdict")
    found.line = line
    lines.at += 1
    return found


def read_counts(lines):
    words = lines.peek()
    if len(words) < 4 or words[0] not in ("in", "out") or (len(words) - 4) % 3:
        raise lines.fault("expected the counts of a unit")
    numbers = [w for i, w in enumerate(words[2:]) if i < 2 or i % 3 != 2]
    if not all(map(is_number, numbers)):
        raise lines.fault("expected the counts of a unit")
    counts = Counts(f"{words[0]} {words[1]}", int(words[2]), int(words[3]))
    for i in range(4, len(words), 3):
        counts.channels[words[i]] = (int(words[i + 1]), int(words[i + 2]))
    lines.at += 1
    return counts


def read_trace(lines):
    (count,) = lines.take("trace", None)
    turns = lines.lines[lines.at : lines.at + count]
    if len(turns) != count:
        raise NoReport(f"the trace has {len(turns)} turns, where its first line says {count}")
    lines.at += count
    if lines.at < len(lines.lines):
        raise lines.fault("expected the end of the trace")
    return turns
