"""What the keys mean, and what to change in a value that is not of its form."""

import difflib
import re

from .inputs import HEX, LOSSY, MOST_SLOTS, NAME, TABLES, is_of_kind, ranged

MEANINGS = {
    "device": "the list of the switches",
    "cable": "the list of the cables, each by its two ports",
    "host": "the list of the hosts, each with the port that it stands at",
    "snapshot": "the table of the snapshots that are to be taken",
    "loss": "the table of the losses",
    "flow": "the list of the flows",
    "raw": "the list of the frames that hosts send as they stand",
    "script": "the table of what is done before finishing",
    "device.name": "the name of the switch",
    "device.ports": "the number of its ports",
    "cable.a": "the port at one end",
    "cable.b": "the port at the other end",
    "cable.version": "the version of the frames on the cable",
    "host.name": "the name of the host",
    "host.at": "the port that the host stands at",
    "snapshot.bits": "the bits of a wrapped id",
    "snapshot.window": "how far the observer may issue above what is collected",
    "snapshot.ring": "the slots in which a unit saves its counts",
    "snapshot.count": "how many snapshots are to be taken",
    "snapshot.retries": "how often an initiation may be repeated",
    "snapshot.credits": "to how many saved entries a packet in flight is credited",
    "snapshot.version": "the version of the frames between units",
    "loss.seed": "the seed of the generator that decides what is lost",
    "loss.cable": "how many of a thousand messages a cable loses",
    "loss.crossbar": "how many of a thousand messages a crossbar link loses",
    "loss.init": "how many of a thousand initiations are lost",
    "loss.notice": "how many of a thousand notices are lost",
    "loss.drop": "the list of single losses",
    "drop.link": "the link that loses the message, spelled as the choice that takes from it",
    "drop.n": "the number of the put that is lost, from 1",
    "flow.from": "the host that sends",
    "flow.to": "the host that the packets are for",
    "flow.count": "the number of packets",
    "flow.bytes": "the bytes of each packet",
    "flow.hops": "the switches that a packet may go through",
    "raw.from": "the host that sends the frame",
    "raw.hex": "the bytes of the frame in hexadecimal",
    "script.entries": "the list of the entries",
}
EXAMPLES = {
    "device": 'device = [{name = "a", ports = 2}]',
    "snapshot": "snapshot = {bits = 2, window = 1, ring = 1, count = 1, retries = 0}",
    "script": 'script = {entries = ["pass 3", "observer issue"]}',
    "cable": 'cable = [{a = "a.1", b = "b.0"}]',
    "host": 'host = [{name = "h0", at = "a.0"}]',
    "flow": 'flow = [{from = "h0", to = "h1", count = 3, bytes = 100, hops = 8}]',
    "loss": "loss = {seed = 1, cable = 50}",
    "raw": 'raw = [{from = "h0", hex = "00"}]',
    "drop": 'drop = [{link = "in a.0 init", n = 1}]',
}
# Words that people use for a key, by table.
OTHER_WORDS = {
    "top": {
        "switch": "device",
        "node": "device",
        "router": "device",
        "switches": "device",
        "link": "cable",
        "links": "cable",
        "edge": "cable",
        "wire": "cable",
        "server": "host",
        "traffic": "flow",
        "losses": "loss",
        "packet": "flow",
        "frame": "raw",
        "schedule": "script",
        "trace": "script",
        "entries": "script",
    },
    "device": {"port": "ports", "id": "name", "radix": "ports"},
    "cable": {"from": "a", "to": "b", "src": "a", "dst": "b", "x": "a", "y": "b"},
    "host": {"port": "at", "id": "name", "device": "at", "where": "at"},
    "snapshot": {
        "modulus": "bits",
        "slots": "ring",
        "width": "bits",
        "number": "count",
        "retry": "retries",
        "resend": "retries",
    },
    "loss": {
        "rate": "cable",
        "drops": "drop",
        "xbar": "crossbar",
        "probability": "cable",
        "initiation": "init",
        "link": "cable",
    },
    "drop": {"number": "n", "place": "n", "on": "link"},
    "flow": {
        "src": "from",
        "source": "from",
        "dst": "to",
        "target": "to",
        "packets": "count",
        "size": "bytes",
        "length": "bytes",
        "len": "bytes",
        "ttl": "hops",
        "number": "count",
    },
    "raw": {"host": "from", "bytes": "hex", "frame": "hex", "src": "from", "data": "hex"},
    "script": {"entry": "entries", "turns": "entries", "steps": "entries"},
}
FORM_WORDS = {
    "name": "a name of 1 to 16 characters, each of `a` to `z`, `0` to `9` and `_`",
    "port": "a port: a device's name, a point and a number, such as `a.0`",
    "hex": "an even number of digits, 0 to 128, each of `0` to `9` and `a` to `f`",
    "text": "a text in quotes",
    "tables": "a list of tables",
    "texts": "a list of texts",
    "table": "a table",
}


def wanted(key, table=None):
    """What a key's value is to be."""
    key = ranged(key, table) if table and key.kind == "number" and not key.high else key
    if key.kind != "number":
        return FORM_WORDS[key.kind]
    if not key.high:
        most = f", at most {MOST_SLOTS}"
        return {"window": f"a number from 1 to 2^bits - 1{most}", "ring": f"a number from window to 2^bits{most}"}[key.name]
    return f"a number from {key.low} to {key.high}"


def kind_of(value):
    if isinstance(value, bool):
        return "a truth value"
    if isinstance(value, str):
        return "a text"
    if isinstance(value, int):
        return "a number"
    if isinstance(value, float):
        return "a number with a point"
    if isinstance(value, list):
        return "a list"
    if isinstance(value, dict):
        return "a table"
    return "a date or a time"


def near(word, words, number=3, least=0.5):
    """The nearest of the words, the nearest first."""
    return difflib.get_close_matches(str(word), list(words), number, least)


def listing(words, most=8):
    """A list of words in a sentence."""
    words = [f"`{w}`" for w in words]
    if not words:
        return "none"
    if len(words) > most:
        return ", ".join(words[:most]) + f" and {len(words) - most} more"
    return ", ".join(words[:-1]) + (" and " if len(words) > 1 else "") + words[-1]


def table_name(path):
    """The table of a path, as the tables of inputs are named, and the key in it."""
    parts = [part for part in path.split(".") if not part.isdecimal()]
    if parts[:2] == ["loss", "drop"] and len(parts) == 3:
        return "drop", parts[2]
    return (parts[0], parts[1]) if len(parts) > 1 else ("top", parts[0])


def guess_of(path, word):
    """The key that an unknown word in the table of the path stands for, or None."""
    name = table_name(f"{path}.x")[0] if path else "top"
    small = word.lower()
    if small in TABLES[name]:
        return small
    return OTHER_WORDS[name].get(small) or next(iter(near(small, TABLES[name], 1, 0.7)), None)


def meaning(path):
    table, key = table_name(path)
    return MEANINGS[key if table == "top" else f"{table}.{key}"]


def plural(number, word):
    return f"{number} {word}" + ("" if number == 1 else "s")


def within(path):
    table = path.rpartition(".")[0]
    return f" in `{table}`" if table else " in the top table"


def value_shown(value):
    if isinstance(value, str):
        return f", `{value}`" if len(value) <= 40 else f" of {len(value)} characters"
    if isinstance(value, bool):
        return f" ({str(value).lower()})"
    if isinstance(value, (int, float)):
        return f" ({value})"
    return ""


def example_beside(key, table):
    """An example of a key that lacks, such that it goes with the keys beside it."""
    number = lambda name: table.get(name) if is_of_kind(table.get(name), "number") else None
    window, ring = number("window") or 1, number("ring") or 1
    if key.name == "ring" and 1 <= window <= MOST_SLOTS:
        return f"ring = {window}"
    if key.name == "bits" and max(window, ring) <= MOST_SLOTS:
        return f"bits = {next(b for b in range(1, 17) if window < 2**b and ring <= 2**b)}"
    return example_of(key)


def example_of(key):
    sample = {
        "name": '"a"',
        "port": '"a.0"',
        "hex": '"00"',
        "text": '"in a.0 init"',
        "texts": '["pass 3"]',
        "tables": "[]",
        "table": "{}",
    }
    value = sample.get(key.kind) or {"bits": "2", "ports": "2", "bytes": "100", "hops": "8"}.get(key.name, "1")
    return f'{key.name} = "h0"' if key.name in ("from", "to") else f"{key.name} = {value}"


def number_advice(path, key, value):
    is_rate = path.startswith("loss.") and key.name in LOSSY
    if isinstance(value, float):
        if is_rate and 0 < value < 1:
            return [f"Rates are per thousand: a share of {value} is written {round(value * 1000)}."]
        whole = round(value) if abs(value) < 1e15 else None
        return [f"Write it without a point: {whole}." if whole is not None and whole == value else "Numbers are whole."]
    if isinstance(value, str):
        percent = re.fullmatch(r"\s*([0-9]+(?:\.[0-9]+)?)\s*%\s*", value)
        if is_rate and percent:
            return [
                f"Rates are per thousand: {value.strip()} is written {round(float(percent[1]) * 10)}, without quotes."
            ]
        if value.strip().isdecimal():
            return [f"Leave out the quotes: {key.name} = {int(value)}"]
        return ["Write a whole number, without quotes."]
    if isinstance(value, bool):
        return ["Write a whole number."]
    if isinstance(value, list) and key.name == "ports":
        return ["Give the number of the ports alone: they are numbered from 0 by themselves."]
    return ["Write a whole number."]


def name_advice(value):
    if value == "":
        return ["It is empty."]
    advice = []
    wrong = sorted({c for c in value if not re.fullmatch(r"[a-z0-9_]", c)})
    if wrong:
        advice.append(f"It has {listing(wrong)}.".replace("` `", "a blank"))
    if len(value.encode()) > 16:
        advice.append(f"It has {len(value.encode())} bytes, and at most 16 are taken.")
    guess = re.sub(r"[^a-z0-9_]+", "_", value.lower())[:16]
    if NAME.match(guess) and any(c != "_" for c in guess):
        advice.append(f"Such as `{guess}`.")
    return advice


def port_advice(value):
    found = re.fullmatch(r"\s*([^.:/ ]+)\s*[.:/ -]\s*(?:p|port|eth)?\s*([+-]?\d+)\s*", value)
    if "." not in value and NAME.match(value):
        return [f"The number of the port is missing: write `{value}.0` for its first port."]
    if found:
        name = re.sub(r"[^a-z0-9_]+", "_", found[1].lower())[:16]
        number = int(found[2])
        if number > 65535:
            return ["The number of a port is at most 65535, and a net takes ports 0 to 7."]
        if number < 0:
            return [f"Ports count from 0: `{name}.0` is the first."]
        if NAME.match(name):
            return [f"Such as `{name}.{number}`."]
    return []


def hex_advice(value):
    bare = re.sub(r"[\s:_-]|0x", "", value.lower())
    advice = []
    wrong = sorted({c for c in value if c not in "0123456789abcdef"})
    if wrong:
        advice.append(f"It has {listing(wrong)}.".replace("` `", "a blank"))
    if HEX.match(bare) and wrong:
        return [*advice, f"Write it as `{bare}`."]
    if len(bare) % 2:
        advice.append(f"It has {len(bare)} digits; each byte has two.")
    if len(bare) > 128:
        advice.append(f"It has {len(bare)} digits, and at most 128 are taken: a frame has 24 bytes, 48 digits.")
    return advice
