"""Which text of the program a file holds, and the readers of those that are no report: values, a polled reading, a table of balance."""

import re
from dataclasses import dataclass, field

from . import streams
from .reports import Lines, NoReport, Report, Snapshot, read_counts, read_report, read_snapshot

# What begins a text, what the text is, and who prints or reads it.
KINDS = [
    ("report", r"speedlight 1\n", "a report", "`step` prints one"),
    ("values", r"values 1\n", "what `speedlight values` prints", "the form `values` reads it"),
    ("poll", r"poll 1\n", "what `speedlight poll` prints", "the form `poll` reads it"),
    ("balance", r"balance 1\n", "what `speedlight balance` prints", "the form `balance` reads it"),
    ("refusal", r"speedlight: ", "a line with which the program refuses an input", "explain says more of it"),
    ("trace", r"trace \d+\n", "a trace without its report", "`step --trace` prints both"),
    ("sample", r"sample \d+\n", "the summary of `speedlight sample`", "`sample N --input` prints its input, which step runs"),
    ("routes", r"route \S+ \S+ ", "what `speedlight routes` prints", "no form reads it"),
    ("check", r"check (yes|no)", "an answer of `speedlight check`", "no form reads it"),
    ("json", r"\s*[{\[]", "JSON", "the program's own text is read"),
    ("svg", r"\s*<", "a picture", "the program's own text is read"),
    ("input", r"(?s).*^\s*(\[+)?(device|snapshot|host|cable|flow)\b", "an input, or another TOML document", "`step` runs it"),
]


@dataclass
class Reading:
    """A polled reading: of each unit the turn before which it was read, its packets and its bytes; and what breaks it."""

    units: dict = field(default_factory=dict)
    link: str = ""
    sent: int = None
    received: int = None


@dataclass
class Balance:
    """Rows of snapshot, device, ports, least, most and spread; and of device, host and equal ways."""

    rows: list = field(default_factory=list)
    paths: list = field(default_factory=list)


def kind_of(text):
    """The kind of a text, as KINDS names it; `empty` or `other`."""
    if not text.strip():
        return "empty"
    return next((kind for kind, begin, _, _ in KINDS if re.match(begin, text, re.M)), "other")


def name_of(path):
    return "standard input" if path == "-" else path


def load(path, *wanted):
    """The kind and the contents of a text of one of the wanted kinds. Raises NoReport with the name of the file."""
    return parse(streams.read_text(path), name_of(path), *wanted)


def parse(text, name, *wanted):
    kind = kind_of(text)
    if kind not in wanted:
        needed = " or ".join(it[2] for it in KINDS if it[0] in wanted)
        what = {it[0]: f"this is {it[2]} ({it[3]})" for it in KINDS} | {
            "empty": "it is empty; did the program refuse its input?",
            "other": "this is no text of the program",
        }
        raise NoReport(f"{name}: {what[kind]}; needed is {needed}")
    reader = {"report": read_report, "values": read_values, "poll": read_poll, "balance": read_balance}[kind]
    try:
        return kind, reader(text)
    except NoReport as fault:
        raise NoReport(f"{name}: {cut_off(text, str(fault))}") from None


def cut_off(text, fault):
    """What is wrong, in words: the fault, or that the text is cut off, where it ends before its last line."""
    lines = text.splitlines()
    found = re.match(r"line (\d+): ", fault)
    at = int(found[1]) if found else 0
    if at > len(lines) or at == len(lines) and not text.endswith("\n") or fault.startswith("the trace has "):
        return f"it is cut off after line {len(lines)}: {fault}"
    return fault


def read_values(text):
    """The values as a report whose whole snapshots are called consistent, and have no channels."""
    lines, report = Lines(text), Report()
    lines.take("values", "1")
    while lines.peek()[:1] == ["snapshot"]:
        number = len(report.snapshots) + 1
        if lines.peek()[2:] == ["whole"]:
            lines.take("snapshot", str(number), "whole")
            counts = []
            while lines.peek()[:1] in (["in"], ["out"]):
                counts.append(read_counts(lines))
            report.snapshots.append(Snapshot(number, "consistent", counts=counts, line=f"snapshot {number} whole"))
        else:
            report.snapshots.append(read_snapshot(lines, 0, number))
    report.wanted = len(report.snapshots)
    while lines.peek()[:1] == ["host"]:
        name = (lines.peek() + [""])[1]
        report.host_counts[name] = tuple(lines.take("host", name, "sent", None, "delivered", None))
    finish(lines)
    return report


def read_poll(text):
    lines, reading = Lines(text), Reading()
    lines.take("poll", "1")
    while lines.peek()[:1] == ["read"]:
        words = (lines.peek() + ["", ""])[1:3]
        reading.units[" ".join(words)] = tuple(lines.take("read", *words, None, None, None))
    if lines.peek()[:1] == ["broken"]:
        words = lines.peek()[1:4]
        reading.link = " ".join(words)
        reading.sent, reading.received = lines.take("broken", *words, "sent", None, "received", None)
    else:
        lines.take("whole")
    finish(lines)
    return reading


def read_balance(text):
    lines, balance = Lines(text), Balance()
    lines.take("balance", "1")
    while lines.peek()[:1] == ["table"]:
        device = (lines.peek() + ["", ""])[2]
        number, *rest = lines.take("table", None, device, None, None, None, None)
        balance.rows.append((number, device, *rest))
    while lines.peek()[:1] == ["paths"]:
        device, host = (lines.peek() + ["", ""])[1:3]
        balance.paths.append((device, host, *lines.take("paths", device, host, None)))
    finish(lines)
    return balance


def finish(lines):
    lines.take("end")
    if lines.at < len(lines.lines):
        raise lines.fault("expected nothing more")
