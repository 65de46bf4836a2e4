"""All mistakes of a document that can be seen at once, where the program names the first alone."""

from .advice import guess_of
from .inputs import (
    MOST_PACKETS,
    MOST_PASSES,
    MOST_ROWS,
    Refusal,
    Walk,
    check_versions,
    is_of_kind,
    is_port,
    passes_of,
    ranged,
)
from .nets import LOSSY, Net, port_of

MOST = 40


class Collecting(Walk):
    """A walk that notes each mistake and goes on where it can."""

    def __init__(self, doc):
        super().__init__(doc)
        self.found = []

    def fault(self, *what, **more):
        self.found.append(Refusal(*what, **more))

    def ranged(self, key, table):
        """The key with its range, None where the keys that it rests on are wrong themselves."""
        if key.name not in ("window", "ring") or "bits" not in table:
            return key if key.high or key.name not in ("window", "ring") else None
        bits, window = table.get("bits"), table.get("window")
        sound = is_of_kind(bits, "number") and 1 <= bits <= 16
        if key.name == "ring":
            sound = sound and is_of_kind(window, "number") and 1 <= window < 2**bits
        return ranged(key, table) if sound else None

    def table(self, path, name, table, ranges=None):
        if isinstance(table, dict):
            super().table(path, name, table)

    def rows(self, name, rows):
        super().rows(name, rows if isinstance(rows, list) else [])

    def run(self):
        doc = self.doc
        self.table("", "top", doc)
        for name in ("device", "cable", "host"):
            self.rows(name, doc.get(name, []))
        self.table("snapshot", "snapshot", doc.get("snapshot"))
        loss = doc.get("loss")
        self.table("loss", "loss", loss)
        drops = loss.get("drop", []) if isinstance(loss, dict) else []
        for i, drop in enumerate(drops if isinstance(drops, list) else []):
            self.table(f"loss.drop.{i}", "drop", drop)
        self.rows("flow", doc.get("flow", []))
        self.rows("raw", doc.get("raw", []))
        self.table("script", "script", doc.get("script"))


def texts(rows, *keys):
    """The rows that are tables with texts for the keys, each with its number."""
    rows = rows if isinstance(rows, list) else []
    return [(i, row) for i, row in enumerate(rows) if isinstance(row, dict) and all(isinstance(row.get(k), str) for k in keys)]


def of_net(doc):
    """Mistakes of devices, cables, hosts, flows and raw frames, row by row."""
    found, used, ports = [], {}, {}
    devices = texts(doc.get("device"), "name")
    for name, key, most in (("device", "N2", 64), ("host", "N6", 128)):
        rows = doc.get(name)
        if name == "device" and rows == []:
            found.append(Refusal("I9", "N1"))
        if isinstance(rows, list) and len(rows) > most:
            found.append(Refusal("I9", f"{key} {len(rows)}"))
    for i, row in devices:
        number = row.get("ports")
        if is_of_kind(number, "number") and not 1 <= number <= 8 and number <= 65535:
            found.append(Refusal("I9", f"N3 device.{i}"))
        if row["name"] in ports:
            found.append(Refusal("I9", f"N8 device.{i}"))
        ports.setdefault(row["name"], number if is_of_kind(number, "number") else 8)
    ends = [("cable", i, row, key) for i, row in texts(doc.get("cable"), "a", "b") for key in ("a", "b")]
    ends += [("host", i, row, "at") for i, row in texts(doc.get("host"), "at")]
    for sort, i, row, key in ends:
        text = row[key]
        if not is_port(text):
            continue
        name, port = port_of(text)
        if name not in ports:
            found.append(Refusal("I7", f"{sort}.{i}.{key}", value=name, hint="device"))
        elif port >= ports[name]:
            found.append(Refusal("I9", f"N4 {sort}.{i}"))
        elif text in used:
            found.append(Refusal("I9", f"{'N5' if sort == 'cable' else 'N7'} {sort}.{i}"))
        used.setdefault(text, f"{sort}.{i}")
    hosts = set()
    for i, row in texts(doc.get("host"), "name"):
        if row["name"] in hosts:
            found.append(Refusal("I9", f"N8 host.{i}"))
        hosts.add(row["name"])
    for sort, keys in (("flow", ("from", "to")), ("raw", ("from",))):
        for key in keys:
            for i, row in texts(doc.get(sort), key):
                if row[key] not in hosts:
                    found.append(Refusal("I7", f"{sort}.{i}.{key}", value=row[key], hint="host"))
    return found


def of_script(doc, net):
    """Links and entries that are not of the net."""
    found, spellings, passes = [], set(net.choices()), 0
    for i, drop in texts(doc.get("loss", {}).get("drop", []), "link"):
        link = net.links.get(drop["link"])
        if link is None or link.sort not in LOSSY:
            found.append(Refusal("I7", f"loss.drop.{i}.link", value=drop["link"], hint="link" if link is None else "reliable"))
    entries = doc.get("script", {}).get("entries", [])
    for i, entry in enumerate(entries if isinstance(entries, list) else []):
        number = passes_of(entry) if isinstance(entry, str) else 0
        if entry in spellings or not isinstance(entry, str):
            continue
        passes += number or 0
        if number is None or passes > MOST_PASSES:
            found.append(Refusal("I8", f"script.{i}", value=entry, hint="" if number is None else str(passes)))
    return found


def of_sizes(doc, net):
    found = []
    total = sum(f["count"] for f in doc.get("flow", [])) + len(doc.get("raw", []))
    if total > MOST_PACKETS:
        found.append(Refusal("I10", str(total), value=total))
    try:
        check_versions(doc)
    except Refusal as refusal:
        found.append(refusal)
    rows = doc["snapshot"]["count"] * len(net.units)
    if rows > MOST_ROWS:
        found.append(Refusal("I12", str(rows), value=rows))
    return found


def without_those_meant(found):
    """Without the keys that lack where an unknown key of the same table is taken for them."""
    meant = set()
    for refusal in found:
        if refusal.kind == "I4":
            path = "" if refusal.rest == "top" else refusal.rest
            meant |= {f"{path}.{guess_of(path, word)}".removeprefix(".") for word in refusal.value}
    return [refusal for refusal in found if refusal.kind != "I3" or refusal.rest not in meant]


def mistakes(doc):
    """The mistakes that can be seen, at most 40; parts that rest on wrong ones are not looked at."""
    walk = Collecting(doc)
    walk.run()
    found = without_those_meant(walk.found) + of_net(doc)
    if not found and doc["device"]:
        try:
            net = Net(doc)
        except (KeyError, ValueError):
            return found[:MOST]
        found += of_script(doc, net) + of_sizes(doc, net)
    elif not any(r.rest.startswith(("device", "cable", "host", "N")) for r in found):
        # The net is sound, so links and entries can be looked at.
        try:
            found += of_script(doc, Net(doc))
        except (KeyError, ValueError, AttributeError, TypeError):
            pass
    return found[:MOST]
