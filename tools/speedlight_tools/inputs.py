"""Reads an input, or says why the program refuses it, in the words and the order of the program."""

import math
import re
import tomllib
from dataclasses import dataclass, field

from .documents import load
from .frames import NARROW
from .nets import LOSSY, Net, net_fault, port_of
from .positions import MOST_DEEP, is_too_deep
from .streams import read_bytes

LIMIT = 1_048_576
TOO_DEEP = "More than 80 lists and tables are within one another, or a key has more than 80 parts"
MOST_DROPS, MOST_PASSES, MOST_PACKETS, MOST_ROWS = 1000, 10_000, 200_000, 1_024_000
MOST_SLOTS = 1024
SEEDS = 9223372036854775807


@dataclass(frozen=True)
class Key:
    """A key of a table: its kind, whether it may be absent, and the range of a number."""

    name: str
    kind: str
    optional: bool = False
    low: int = 0
    high: int = 0


def keys(*rows):
    return {key.name: key for key in rows}


RATES = [Key(sort, "number", True, 0, 1000) for sort in LOSSY]
# The tables of an input, with their keys in order. The ranges of window and ring are those of the keys before.
TABLES = {
    "top": keys(
        Key("device", "tables"),
        Key("cable", "tables", True),
        Key("host", "tables", True),
        Key("snapshot", "table"),
        Key("loss", "table", True),
        Key("flow", "tables", True),
        Key("raw", "tables", True),
        Key("script", "table", True),
    ),
    "device": keys(Key("name", "name"), Key("ports", "number", False, 0, 65535)),
    "cable": keys(Key("a", "port"), Key("b", "port"), Key("version", "number", True, 1, 2)),
    "host": keys(Key("name", "name"), Key("at", "port")),
    "snapshot": keys(
        Key("bits", "number", False, 1, 16),
        Key("window", "number"),
        Key("ring", "number"),
        Key("count", "number", False, 0, 100_000),
        Key("retries", "number", True, 0, 100),
        Key("credits", "number", True, 1, 4),
        Key("version", "number", True, 1, 2),
    ),
    "loss": keys(Key("seed", "number", True, 0, SEEDS), *RATES, Key("drop", "tables", True)),
    "drop": keys(Key("link", "text"), Key("n", "number", False, 1, 1_000_000_000)),
    "flow": keys(
        Key("from", "name"),
        Key("to", "name"),
        Key("count", "number", False, 0, 20000),
        Key("bytes", "number", False, 0, 65535),
        Key("hops", "number", False, 0, 255),
    ),
    "raw": keys(Key("from", "name"), Key("hex", "hex")),
    "script": keys(Key("entries", "texts")),
}
NAME = re.compile(r"[a-z0-9_]{1,16}\Z", re.ASCII)
DECIMAL = re.compile(r"(0|[1-9][0-9]*)\Z", re.ASCII)
HEX = re.compile(r"([0-9a-f]{2}){0,64}\Z", re.ASCII)


@dataclass
class Refusal(Exception):
    """A refusal: its kind (I1 to I12), the rest of the line, and what explains it."""

    kind: str
    rest: str = ""
    key: Key = None
    value: object = None
    hint: str = ""
    place: tuple = field(default=None)

    @property
    def line(self):
        return f"speedlight: {self.kind}" + (f" {self.rest}" if self.rest else "")

    def __str__(self):
        return self.line


class Input:
    """An accepted input: its document, its network, and what stands for keys that are absent."""

    def __init__(self, doc):
        self.doc, self.net = doc, Net(doc)
        self.flows, self.raws = doc.get("flow", []), doc.get("raw", [])
        self.snapshot = {"retries": 0, "credits": 1, "version": 1, **doc["snapshot"]}
        self.loss = {"seed": 0, **dict.fromkeys(LOSSY, 0), "drop": [], **doc.get("loss", {})}
        self.entries = doc.get("script", {}).get("entries", [])


def is_port(text):
    name, point, port = text.partition(".")
    return bool(point and NAME.match(name) and DECIMAL.match(port) and int(port[:6]) <= 65535 and len(port) <= 5)


FORMS = {"name": lambda t: NAME.match(t), "port": is_port, "hex": lambda t: HEX.match(t), "text": lambda t: True}


def is_of_kind(value, kind):
    if kind == "number":
        return isinstance(value, int) and not isinstance(value, bool)
    if kind == "tables":
        return isinstance(value, list)
    if kind == "texts":
        return isinstance(value, list)
    if kind == "table":
        return isinstance(value, dict)
    return isinstance(value, str) and bool(FORMS[kind](value))


class Walk:
    """The walk over the tables of a document, in the program's order. Its `fault` raises; see `mistakes` for one that goes on."""

    def __init__(self, doc):
        self.doc = doc

    def fault(self, *what, **more):
        raise Refusal(*what, **more)

    def table(self, path, name, table, ranges=None):
        listed = TABLES[name]
        if not all(key in listed for key in table):
            self.fault("I4", path or "top", value=[k for k in table if k not in listed])
        for key in listed.values():
            where = f"{path}.{key.name}" if path else key.name
            if key.name not in table:
                if not key.optional:
                    self.fault("I3", where, key)
                continue
            self.value(where, key, table[key.name], table)

    def ranged(self, key, table):
        return ranged(key, table)

    def value(self, where, key, value, table):
        if not is_of_kind(value, key.kind):
            return self.fault("I5", where, key, value)
        if key.kind in ("tables", "texts"):
            for i, element in enumerate(value):
                if not isinstance(element, dict if key.kind == "tables" else str):
                    self.fault("I5", f"{where}.{i}", key, element)
        if where == "loss.drop" and len(value) > MOST_DROPS:
            self.fault("I6", f"{where} {len(value)}", Key("drop", "tables", True, 0, MOST_DROPS), len(value))
        if key.kind == "number":
            key = self.ranged(key, table)
            if key and not key.low <= value <= key.high:
                self.fault("I6", f"{where} {value}", key, value)

    def run(self):
        doc = self.doc
        self.table("", "top", doc)
        for name in ("device", "cable", "host"):
            self.rows(name, doc.get(name, []))
        self.table("snapshot", "snapshot", doc["snapshot"])
        if "loss" in doc:
            self.table("loss", "loss", doc["loss"])
            for i, drop in enumerate(doc["loss"].get("drop", [])):
                self.table(f"loss.drop.{i}", "drop", drop)
        self.rows("flow", doc.get("flow", []))
        self.rows("raw", doc.get("raw", []))
        if "script" in doc:
            self.table("script", "script", doc["script"])

    def rows(self, name, rows):
        for i, row in enumerate(rows):
            self.table(f"{name}.{i}", name, row)


def ranged(key, table):
    """The key with its range, where that rests on the keys before it."""
    if key.name == "window" and "bits" in table:
        return Key(key.name, key.kind, False, 1, min(2 ** table["bits"] - 1, MOST_SLOTS))
    if key.name == "ring" and "bits" in table:
        return Key(key.name, key.kind, False, table["window"], min(2 ** table["bits"], MOST_SLOTS))
    return key


def parse(data):
    """The document that the bytes are, or I1 or I2."""
    if len(data) > LIMIT:
        raise Refusal("I1", value=len(data))
    try:
        text = data.decode("utf-8").removeprefix("\ufeff")
    except UnicodeDecodeError as error:
        before = data[: error.start]
        column = error.start - (before.rfind(b"\n") + 1) + 1
        place = (before.count(b"\n") + 1, column)
        raise Refusal("I2", hint=f"Byte {data[error.start]} is no UTF-8", place=place) from None
    try:
        doc = load(text, float_of)
    except tomllib.TOMLDecodeError as error:
        raise Refusal("I2", hint=str(error), place=error.place) from None
    except ValueError as error:
        raise Refusal("I2", hint=str(error)) from None
    except RecursionError:
        raise Refusal("I2", hint=TOO_DEEP) from None
    check_depth(doc, text)
    check_numbers(doc, "")
    return doc


def check_depth(doc, text):
    """The program's reader takes 80 lists and tables in braces within one another, and 80 parts of a key."""
    level, values = 0, [doc]
    while values and level <= MOST_DEEP:
        inner = [v.values() if isinstance(v, dict) else v for v in values if isinstance(v, (dict, list))]
        level, values = level + 1, [v for part in inner for v in part]
    try:
        if level > MOST_DEEP and is_too_deep(text):
            raise Refusal("I2", hint=TOO_DEEP)
    except RecursionError:
        raise Refusal("I2", hint=TOO_DEEP) from None


def float_of(text):
    if math.isinf(float(text)) and "inf" not in text:
        raise Refusal("I2", hint=f"The number {text} is too large for 64 bits", value=text)
    return float(text)


def check_numbers(value, path):
    """Whole numbers and floats beyond 64 bits make a text no document."""
    if isinstance(value, dict):
        for key, inner in value.items():
            check_numbers(inner, f"{path}.{key}" if path else key)
    elif isinstance(value, list):
        for i, inner in enumerate(value):
            check_numbers(inner, f"{path}.{i}")
    elif isinstance(value, int) and not -SEEDS - 1 <= value <= SEEDS:
        raise Refusal("I2", hint=f"The number {value} at {path} has more than 64 bits", value=path)


def check_names(doc):
    """The devices that ports name, the net, the hosts that flows and raw frames name."""
    devices = [d["name"] for d in doc["device"]]
    ports = [(f"cable.{i}.{end}", c[end]) for i, c in enumerate(doc.get("cable", [])) for end in ("a", "b")]
    ports += [(f"host.{i}.at", h["at"]) for i, h in enumerate(doc.get("host", []))]
    for where, text in ports:
        if port_of(text)[0] not in devices:
            raise Refusal("I7", where, value=port_of(text)[0], hint="device")
    fault = net_fault(doc)
    if fault:
        raise Refusal("I9", fault)
    hosts = [h["name"] for h in doc.get("host", [])]
    names = [(f"flow.{i}.{end}", f[end]) for i, f in enumerate(doc.get("flow", [])) for end in ("from", "to")]
    names += [(f"raw.{i}.from", r["from"]) for i, r in enumerate(doc.get("raw", []))]
    for where, name in names:
        if name not in hosts:
            raise Refusal("I7", where, value=name, hint="host")


def check_links(doc, net):
    for i, drop in enumerate(doc.get("loss", {}).get("drop", [])):
        link = net.links.get(drop["link"])
        if link is None or link.sort not in LOSSY:
            hint = "link" if link is None else "reliable"
            raise Refusal("I7", f"loss.drop.{i}.link", value=drop["link"], hint=hint)


def passes_of(entry):
    """The number of passes that an entry asks for; None where it is no such entry."""
    word, _, number = entry.partition(" ")
    if word != "pass" or not DECIMAL.match(number) or len(number) > 5 or not 1 <= int(number) <= MOST_PASSES:
        return None
    return int(number)


def check_script(doc, net):
    spellings, passes = set(net.choices()), 0
    for i, entry in enumerate(doc.get("script", {}).get("entries", [])):
        if entry in spellings:
            continue
        number = passes_of(entry)
        if number is None:
            raise Refusal("I8", f"script.{i}", value=entry)
        passes += number
        if passes > MOST_PASSES:
            raise Refusal("I8", f"script.{i}", value=entry, hint=str(passes))


def check_versions(doc):
    """Ids of more than 8 bits go in frames of version 2 alone."""
    snapshot = doc["snapshot"]
    if snapshot["bits"] <= NARROW:
        return
    if snapshot.get("version", 1) == 1:
        raise Refusal("I11", "snapshot.version", value=snapshot["bits"])
    for i, cable in enumerate(doc.get("cable", [])):
        if cable.get("version", 2) == 1:
            raise Refusal("I11", f"cable.{i}.version", value=snapshot["bits"])


def check(doc):
    """Raises the first refusal of the document, and answers the input where there is none."""
    Walk(doc).run()
    check_names(doc)
    net = Net(doc)
    check_links(doc, net)
    check_script(doc, net)
    total = sum(f["count"] for f in doc.get("flow", [])) + len(doc.get("raw", []))
    if total > MOST_PACKETS:
        raise Refusal("I10", str(total), value=total)
    check_versions(doc)
    rows = doc["snapshot"]["count"] * len(net.units)
    if rows > MOST_ROWS:
        raise Refusal("I12", str(rows), value=rows)
    return Input(doc)


def read_input(path):
    """The input in a file, `-` for standard input. Raises Refusal, or OSError where there is no such file."""
    return check(parse(read_bytes(path)))


def text_of(doc):
    """The document as the text of an input: a line for each key of the top table."""
    return "".join(f"{key} = {value_text(value)}\n" for key, value in doc.items())


def value_text(value):
    if isinstance(value, dict):
        return "{" + ", ".join(f"{key} = {value_text(inner)}" for key, inner in value.items()) + "}"
    if isinstance(value, list):
        return "[" + ", ".join(map(value_text, value)) + "]"
    if isinstance(value, str):
        return '"' + value.replace("\\", "\\\\").replace('"', '\\"') + '"'
    if isinstance(value, bool):
        return str(value).lower()
    if isinstance(value, (int, float)):
        return repr(value)
    raise ValueError(f"no text for {value!r}")
