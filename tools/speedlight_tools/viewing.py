"""The data of a run for the page that shows it: columns of numbers, and what is said of them."""

import base64
import gzip
import json
import sys
from array import array

from .banners import Banner
from .drawing import ordered
from .stories import Stories, moved_on

NONE = 0xFFFFFFFF
KINDS = ("data", "frame", "begin", "init", "probe", "notice", "poll", "dump", "done")
LOST = 0x80
ENDS = ("under way", "delivered", "bad", "expired", "noroute", "lost")
CODES = {"B": "Uint8Array", "H": "Uint16Array", "I": "Uint32Array", "i": "Int32Array", "d": "Float64Array"}


class Columns:
    """Named columns of numbers, which the page reads as typed arrays out of one compressed block."""

    def __init__(self):
        self.made = {}

    def add(self, name, code, values):
        self.made[name] = (code, array(code, values))

    def pack(self):
        """Where each column lies, and the block in base64."""
        places, parts, at = {}, [], 0
        for name, (code, values) in self.made.items():
            if sys.byteorder == "big":
                values.byteswap()
            data = values.tobytes()
            places[name] = [CODES[code], at, len(values)]
            padding = -len(data) % 8
            parts += [data, bytes(padding)]
            at += len(data) + padding
        return places, packed(b"".join(parts))


class Run:
    """A run as the page shows it."""

    def __init__(self, source, report, world, name, readings=()):
        self.source, self.report, self.world, self.name, self.readings = source, report, world, name, readings
        net = world.net
        self.net = net
        self.actors = {a: i for i, a in enumerate(net.actors)}
        self.choices = {c: i for i, c in enumerate(net.choices())}
        self.units = {u: i for i, u in enumerate(net.units)}
        self.columns = Columns()
        self.packets = {}

    def data(self, layout):
        """What the page is told in words, and the block of columns."""
        self.messages()
        self.turns()
        self.ways()
        self.changes()
        snapshots = self.snapshots()
        places, block = self.columns.pack()
        return {"columns": places, "snapshots": snapshots, **self.words(layout)}, block

    def words(self, layout):
        net, snapshot, report = self.net, self.source.snapshot, self.report
        kept = ("bits", "window", "ring", "count", "retries", "credits", "version")
        return {
            "name": self.name,
            "turns": len(self.world.turns),
            "settings": {key: snapshot[key] for key in kept},
            "devices": [{"name": d, "ports": net.used[d]} for d in net.devices],
            "hosts": [{"name": h, "device": d, "port": p} for h, (d, p) in net.host_port.items()],
            "cables": [[d, p, e, q] for (d, p), (e, q) in net.cables],
            "actors": net.actors,
            "order": [self.actors[a] for a in ordered(self.world)],
            "units": [self.actors[u] for u in net.units],
            "links": [[k.spelling, self.actors[k.source], self.actors[k.target], k.sort] for k in net.links.values()],
            "choices": [[c, self.actors[c.rpartition(" ")[0]]] for c in self.choices],
            "flows": [[f["from"], f["to"], f["count"], f["bytes"], f["hops"]] for f in self.source.flows],
            "kinds": KINDS,
            "ends": ENDS,
            "layout": layout,
            "readings": list(self.readings),
            "report": {
                "issued": report.issued,
                "collected": report.collected,
                "resent": report.resent,
                "hosts": report.host_counts,
                "drops": report.drops,
                "lost": report.lost,
            },
        }

    def messages(self):
        """A row for each message: its link, kind, stamp and packet, its take, and up to which number it was in flight."""
        made = self.world.messages
        sent = self.packets
        for m in made:
            if m.packet is not None and m.packet.sent not in sent:
                sent[m.packet.sent] = len(sent)
        kinds = {kind: place for place, kind in enumerate(KINDS)}
        add = self.columns.add
        add("link", "H", (m.link.number for m in made))
        add("kind", "B", (kinds[m.kind] | (LOST if m.lost else 0) for m in made))
        add("stamp", "I", (NONE if m.stamp is None else m.stamp for m in made))
        add("take", "i", (-1 if m.take is None else m.take.place for m in made))
        add("packet", "i", (-1 if m.packet is None else sent[m.packet.sent] for m in made))
        add("across", "I", (self.across(m) for m in made))

    @staticmethod
    def across(message):
        """The greatest number whose cut a data packet between units crossed in flight, from the one above its stamp on; or 0."""
        if message.kind != "data" or message.take is None or message.link.sort not in ("cable", "crossbar"):
            return 0
        return message.take.id if message.take.id > message.stamp else 0

    def turns(self):
        """A row for each turn: its choice, how many messages it puts, and the unit's number and counters after it."""
        turns, add = self.world.turns, self.columns.add
        add("choice", "H", (self.choices[f"{t.actor} {t.choice}"] for t in turns))
        add("puts", "H", (len(t.puts) for t in turns))
        add("id", "I", (t.id for t in turns))
        packets, sizes = array("I"), array("d")
        totals = {}
        for t in turns:
            count, size = totals.get(t.actor, (0, 0))
            if t.took is not None and t.took.kind == "data":
                count, size = count + 1, size + t.took.packet.size
                totals[t.actor] = (count, size)
            packets.append(count)
            sizes.append(size)
        add("packets", "I", packets)
        add("bytes", "d", sizes)

    def ways(self):
        """A row for each packet: where it is from and for, and how it ended."""
        add, hosts = self.columns.add, {h: i for i, h in enumerate(self.net.hosts)}
        sent = list(self.packets)
        ends = [(0, -1)] * len(sent)
        for m in self.world.messages:
            if m.packet is None:
                continue
            if m.lost:
                end = (ENDS.index("lost"), m.put.place)
            elif m.take is not None and m.take.dropped:
                end = (ENDS.index(m.take.dropped), m.take.place)
            elif m.take is not None and m.link.sort == "net":
                end = (ENDS.index("delivered"), m.take.place)
            else:
                continue
            ends[self.packets[m.packet.sent]] = end
        add("packetHost", "H", (hosts[s.host] for s in sent))
        add("packetFlow", "i", (-1 if s.flow is None else s.flow for s in sent))
        add("packetTo", "H", (s.dst for s in sent))
        add("packetSeq", "I", (s.seq for s in sent))
        add("packetBytes", "H", (s.size for s in sent))
        add("packetEnd", "B", (kind for kind, _ in ends))
        add("packetEndTurn", "i", (place for _, place in ends))

    def changes(self):
        """What changed in each unit, and when: the entries that it saved, the credits to them, the last-seen numbers of
        its channels; and the turns that went over a number or took a packet that is missing from one."""
        world, credits = self.world, self.source.snapshot["credits"]
        saves = {u: [] for u in self.units}
        given = {u: [] for u in self.units}
        seen = [[] for _ in self.net.links]
        last, totals, saved = {}, {}, {u: [] for u in self.units}
        late, over = [], []
        packets, sizes = self.columns.made["packets"][1], self.columns.made["bytes"][1]
        for t in world.turns:
            m = t.took
            if m is None or t.actor not in self.units:
                continue
            if t.id > t.before:
                taken = m.kind == "data"
                saves[t.actor].append((t.place, t.id, packets[t.place] - taken, sizes[t.place] - (m.packet.size if taken else 0)))
                saved[t.actor].append(t.id)
                if t.id > t.before + 1:
                    over.append((t.place, t.before, t.id))
            if m.stamp is None:
                continue
            if m.stamp != last.get(m.link.number, 0):
                last[m.link.number] = m.stamp
                seen[m.link.number].append((t.place, m.stamp))
            if m.kind == "data" and m.stamp < t.id:
                for number in saved[t.actor][-credits:]:
                    if number > m.stamp:
                        key = (t.actor, number, m.link.number)
                        count, size = totals.get(key, (0, 0))
                        totals[key] = (count + 1, size + m.packet.size)
                        given[t.actor].append((t.place, number, m.link.number, *totals[key]))
                if m.stamp + 1 < t.written:
                    late.append((m.place, m.stamp, t.written))
        self.table("save", list(saves.values()), [("Turn", "i"), ("Number", "I"), ("Packets", "I"), ("Bytes", "d")])
        self.table("credit", list(given.values()), [("Turn", "i"), ("Number", "I"), ("Link", "H"), ("Packets", "I"), ("Bytes", "d")])
        self.table("seen", seen, [("Turn", "i"), ("Number", "I")])
        self.table("late", [late], [("Message", "i"), ("Stamp", "I"), ("Written", "I")])
        self.table("over", [over], [("Turn", "i"), ("Before", "I"), ("Number", "I")])

    def table(self, name, groups, fields):
        """Rows in groups, as columns with where each group starts."""
        starts = [0]
        for group in groups:
            starts.append(starts[-1] + len(group))
        self.columns.add(f"{name}Start", "I", starts)
        rows = [row for group in groups for row in group]
        for place, (field, code) in enumerate(fields):
            self.columns.add(name + field, code, (row[place] for row in rows))

    def told(self, stories, s):
        """What is said of a snapshot, and the turns, messages and actors that this tells of."""
        place, message = stories.fault(s)
        begun, carried = stories.cause(s)
        banner = Banner(stories, s)
        sender = lambda step: self.actors[step.link.source] if step.link else -1
        return {
            "verdict": s.verdict,
            "line": s.line,
            "unit": self.actors.get(s.unit, -1) if s.unit else -1,
            "lines": [[line.name, line.words, line.why] for line in banner.lines()],
            "right": banner.right(),
            "keys": stories.keys(s),
            "causeTurn": begun,
            "causeMessage": carried,
            "turn": place,
            "message": message,
            "moved": moved_on(self.world, s).place if s.verdict == "miscredited" else None,
            "waiting": [self.actors[u] for u in stories.waiting_too(s)],
            "steps": [[p.place, p.words, p.message, p.snapshot, sender(p)] for p in stories.steps(s)],
        }

    def snapshots(self):
        """What is said of each snapshot, and as columns its cut and what it told of units and channels."""
        stories = Stories(self.world, self.source, self.report.snapshots)
        cuts, counts, channels = array("i"), array("d"), array("d")
        width = sum(len(self.net.channels(u)) for u in self.units)
        told = []
        for s in self.report.snapshots:
            issued = s.verdict != "not issued"
            told.append(self.told(stories, s))
            for unit in self.units:
                crossing = self.world.crossing(unit, s.number) if issued else None
                cuts.append(-1 if crossing is None else crossing.place)
            for row in s.counts:
                counts.extend((row.packets, row.size))
                for pair in row.channels.values():
                    channels.extend(pair)
            if not s.counts:
                counts.extend([0] * 2 * len(self.units))
                channels.extend([0] * 2 * width)
        self.columns.add("cut", "i", cuts)
        self.columns.add("counts", "d", counts)
        self.columns.add("channels", "d", channels)
        return told


def packed(data):
    """The bytes compressed, in base64. The time is left out, so that the same run gives the same page."""
    return base64.b64encode(gzip.compress(data, 6, mtime=0)).decode()


def packed_words(words):
    return packed(json.dumps(words, separators=(",", ":")).encode())
