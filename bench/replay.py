#!/usr/bin/env python3
"""An independent replay of speedlight, written from docs/PROTOCOL.md and docs/FORMATS.md alone, without a look at the code.

It reads what the program reads and prints what those two pages say that the program prints. What they left open then is
said there now. bench/cross holds the program against it.

    bench/replay.py step [--trace] < input
    bench/replay.py routes < input
    bench/replay.py balance < input
    bench/replay.py poll S G < input
    bench/replay.py values < input
    bench/replay.py check < stream
    bench/replay.py sample N [--input]

It ends with the program's statuses. `run` isn't here: its order of turns is another at each call.
It reads from top to bottom: the input and its refusals, the net and its links, losses, frames, the
actors, turns and the end of a run, verdicts, and last the texts.
"""

import math
import re
import sys
import tomllib
from collections import deque
from dataclasses import dataclass, field
from functools import cached_property, lru_cache

MOST_INPUT_BYTES = 1_048_576
MOST_STREAM_BYTES = 4_194_304
MOST_PACKETS = 200_000
MOST_ROWS = 1_024_000
MOST_PASSES = 10_000
MOST_NESTED = 80
LEAST_INTEGER, MOST_INTEGER = -(2**63), 2**63 - 1


class Refusal(Exception):
    """Why there is no answer: the status and the text after `speedlight: `."""

    def __init__(self, text, status=3):
        super().__init__(text)
        self.text = text
        self.status = status


# The input: a document's tables, each read key by key in the order of the page.


NAME_CHARACTERS = frozenset("abcdefghijklmnopqrstuvwxyz0123456789_")
HEX_CHARACTERS = frozenset("0123456789abcdef")


def is_name(text):
    return 1 <= len(text) <= 16 and set(text) <= NAME_CHARACTERS


def is_decimal(text, most):
    """Whether a text is a decimal number without sign and leading zero, and at most that large."""
    digits = text.isascii() and text.isdigit()
    return digits and (text == "0" or text[0] != "0") and len(text) <= 10 and int(text) <= most


def is_port(text):
    name, point, number = text.rpartition(".")
    return point == "." and is_name(name) and is_decimal(number, 65535)


def is_hex(text):
    return len(text) % 2 == 0 and len(text) <= 128 and set(text) <= HEX_CHARACTERS


class Table:
    """A table of the document, with its path."""

    def __init__(self, values, path, keys):
        self.values = values
        self.path = path
        if not values.keys() <= set(keys):
            raise Refusal(f"I4 {path or 'top'}")

    def path_of(self, key):
        return f"{self.path}.{key}" if self.path else key

    def get(self, key, is_kind, absent=None):
        """The value at the key where it is of this kind; `absent` where the key may be absent."""
        if key not in self.values:
            if absent is None:
                raise Refusal(f"I3 {self.path_of(key)}")
            return absent
        value = self.values[key]
        if not is_kind(value):
            raise Refusal(f"I5 {self.path_of(key)}")
        return value

    def text(self, key, is_form=lambda text: True):
        return self.get(key, lambda value: isinstance(value, str) and is_form(value))

    def number(self, key, least, most, absent=None):
        value = self.get(key, lambda value: type(value) is int, absent)
        if key in self.values and not least <= value <= most:
            raise Refusal(f"I6 {self.path_of(key)} {value}")
        return value

    def table(self, key, absent=None):
        return self.get(key, lambda value: isinstance(value, dict), absent)

    def list_of(self, kind, key, absent=None):
        """A list with entries of one kind. One of another kind is refused here, with its path."""
        entries = self.get(key, lambda value: isinstance(value, list), absent)
        for i, entry in enumerate(entries):
            if not isinstance(entry, kind):
                raise Refusal(f"I5 {self.path_of(key)}.{i}")
        return entries


@dataclass(frozen=True)
class Device:
    name: str
    ports: int


@dataclass(frozen=True)
class Cable:
    """A cable. Its version is 0 where it is that of the snapshot table."""

    a: str
    b: str
    version: int


@dataclass(frozen=True)
class Host:
    name: str
    at: str


@dataclass(frozen=True)
class Snapshot:
    bits: int
    window: int
    ring: int
    count: int
    retries: int
    credits: int
    version: int


@dataclass(frozen=True)
class Drop:
    link: str
    number: int


@dataclass(frozen=True)
class Loss:
    seed: int
    rates: dict
    drops: list


@dataclass(frozen=True)
class Flow:
    source: str
    target: str
    count: int
    bytes: int
    hops: int


@dataclass(frozen=True)
class Raw:
    source: str
    frame: bytes


@dataclass(frozen=True)
class Input:
    """An input that is not refused, with its net."""

    net: "Net"
    snapshot: Snapshot
    loss: Loss
    flows: list
    raws: list
    script: list


def parse_document(data):
    """The top table of a document. It is TOML 1.1, with integers of 64 bits and finite floats."""
    if len(data) > MOST_INPUT_BYTES:
        raise Refusal("I1")
    try:
        document = tomllib.loads(as_toml_1_0(data.decode("utf-8")), parse_float=read_float)
    except ValueError:
        raise Refusal("I2") from None
    if has_wide_integer(document):
        raise Refusal("I2")
    return document


# A string, a comment, blanks, a bracket or sign, another run of characters, or what is left.
TOML_PARTS = re.compile(
    "|".join(
        [
            r'"""(?:[^\\]|\\.)*?"{3,5}',
            r"'''.*?'{3,5}",
            r'"(?:[^"\\\n]|\\.)*"',
            r"'[^'\n]*'",
            r"#[^\n]*",
            r"[ \t\n]+",
            r"[\[\]{},=]",
            r"[^ \t\n\[\]{},=#\"']+",
            r".",
        ]
    ),
    re.DOTALL,
)


def as_toml_1_0(text):
    """The text in TOML 1.0, which alone tomllib reads.

    TOML 1.1 takes line ends, comments and a last comma in inline tables, two escapes more, and times
    without seconds.
    """
    parts = TOML_PARTS.findall(text.removeprefix("\ufeff").replace("\r\n", "\n"))
    written, opened, last = [], [], ""
    for part, following in zip(parts, list_following(parts)):
        in_table = opened[-1:] == ["{"]
        if is_blank(part):
            between = last in ("{", ",") or following in (",", "}")
            written.append(" " if in_table and between else part)
            continue
        is_last_comma = part == "," and in_table and following == "}" and last not in ("{", ",")
        written.append("" if is_last_comma else write_part(part))
        last = part
        if part in ("[", "{"):
            opened.append(part)
        elif part in ("]", "}"):
            del opened[-1:]
        if len(opened) > MOST_NESTED:
            raise ValueError("nested too deeply")
    return "".join(written)


def is_blank(part):
    return part[0] in " \t\n#"


def list_following(parts):
    """For each part, the next one that is neither blank nor a comment."""
    following, found = [], ""
    for part in reversed(parts):
        following.append(found)
        if not is_blank(part):
            found = part
    return reversed(following)


def write_part(part):
    """A string or word of TOML 1.1 as one of TOML 1.0. No value may be a time, so a leap second may go."""
    if part[0] == '"':
        return re.sub(r"\\(e|x[0-9a-fA-F]{2}|.)", write_escape, part, flags=re.DOTALL)
    if part[0] == "'":
        return part
    part = re.sub(r"^((?:[0-9-]{10}[Tt])?[0-9]{2}:[0-9]{2})(Z|z|[+-][0-9]{2}:[0-9]{2}|)$", r"\1:00\2", part)
    return re.sub(r"^((?:[0-9-]{10}[Tt])?[0-9]{2}:[0-9]{2}):60", r"\1:59", part)


def write_escape(found):
    escape = found[1]
    if escape == "e":
        return "\\u001b"
    return f"\\u00{escape[1:]}" if escape[0] == "x" and len(escape) == 3 else found[0]


def read_float(text):
    value = float(text)
    if math.isinf(value) and "inf" not in text:
        raise ValueError("out of range")
    return value


def has_wide_integer(value):
    if isinstance(value, dict):
        return any(has_wide_integer(entry) for entry in value.values())
    if isinstance(value, list):
        return any(has_wide_integer(entry) for entry in value)
    return type(value) is int and not LEAST_INTEGER <= value <= MOST_INTEGER


def read_device(values, path):
    table = Table(values, path, ["name", "ports"])
    return Device(table.text("name", is_name), table.number("ports", 0, 65535))


def read_cable(values, path):
    table = Table(values, path, ["a", "b", "version"])
    return Cable(table.text("a", is_port), table.text("b", is_port), table.number("version", 1, 2, 0))


def read_host(values, path):
    table = Table(values, path, ["name", "at"])
    return Host(table.text("name", is_name), table.text("at", is_port))


def read_snapshot(values):
    keys = ["bits", "window", "ring", "count", "retries", "credits", "version"]
    table = Table(values, "snapshot", keys)
    bits = table.number("bits", 1, 16)
    window = table.number("window", 1, min(2**bits - 1, 1024))
    return Snapshot(
        bits,
        window,
        table.number("ring", window, min(2**bits, 1024)),
        table.number("count", 0, 100_000),
        table.number("retries", 0, 100, 0),
        table.number("credits", 1, 4, 1),
        table.number("version", 1, 2, 1),
    )


def read_drop(values, path):
    table = Table(values, path, ["link", "n"])
    return Drop(table.text("link"), table.number("n", 1, 1_000_000_000))


def read_loss(values):
    """The losses but for the drops, and the tables of these."""
    kinds = ["cable", "crossbar", "init", "notice"]
    table = Table(values, "loss", ["seed", *kinds, "drop"])
    seed = table.number("seed", 0, MOST_INTEGER, 0)
    rates = {kind: table.number(kind, 0, 1000, 0) for kind in kinds}
    drops = table.list_of(dict, "drop", [])
    if len(drops) > 1000:
        raise Refusal(f"I6 loss.drop {len(drops)}")
    return seed, rates, drops


def read_flow(values, path):
    table = Table(values, path, ["from", "to", "count", "bytes", "hops"])
    return Flow(
        table.text("from", is_name),
        table.text("to", is_name),
        table.number("count", 0, 20_000),
        table.number("bytes", 0, 65535),
        table.number("hops", 0, 255),
    )


def read_raw(values, path):
    table = Table(values, path, ["from", "hex"])
    return Raw(table.text("from", is_name), bytes.fromhex(table.text("hex", is_hex)))


def read_each(read, tables, path):
    return [read(values, f"{path}.{i}") for i, values in enumerate(tables)]


@lru_cache(maxsize=4)
def read_input(data):
    """The input of these bytes, or the first refusal that applies."""
    keys = ["device", "cable", "host", "snapshot", "loss", "flow", "raw", "script"]
    top = Table(parse_document(data), "", keys)
    lists = {
        "device": top.list_of(dict, "device"),
        "cable": top.list_of(dict, "cable", []),
        "host": top.list_of(dict, "host", []),
    }
    tables = {"snapshot": top.table("snapshot"), "loss": top.table("loss", {})}
    lists["flow"] = top.list_of(dict, "flow", [])
    lists["raw"] = top.list_of(dict, "raw", [])
    tables["script"] = top.table("script", {"entries": []})
    return read_tables(lists, tables)


def read_tables(lists, tables):
    devices = read_each(read_device, lists["device"], "device")
    cables = read_each(read_cable, lists["cable"], "cable")
    hosts = read_each(read_host, lists["host"], "host")
    snapshot = read_snapshot(tables["snapshot"])
    seed, rates, drop_tables = read_loss(tables["loss"])
    drops = read_each(read_drop, drop_tables, "loss.drop")
    flows = read_each(read_flow, lists["flow"], "flow")
    raws = read_each(read_raw, lists["raw"], "raw")
    entries = Table(tables["script"], "script", ["entries"]).list_of(str, "entries")
    net = build_net(devices, cables, hosts)
    check_names(net, flows, raws, drops)
    script = read_script(net, entries)
    check_sums(net, snapshot, flows, raws)
    return Input(net, snapshot, Loss(seed, rates, drops), flows, raws, script)


def check_names(net, flows, raws, drops):
    """Refuses hosts of flows and raw frames, and links of drops, that aren't there."""
    names = {host.name for host in net.hosts}
    for i, flow in enumerate(flows):
        if flow.source not in names:
            raise Refusal(f"I7 flow.{i}.from")
        if flow.target not in names:
            raise Refusal(f"I7 flow.{i}.to")
    for i, raw in enumerate(raws):
        if raw.source not in names:
            raise Refusal(f"I7 raw.{i}.from")
    lossy = {choice.spelling for choice in net.choices if choice.loses}
    for i, drop in enumerate(drops):
        if drop.link not in lossy:
            raise Refusal(f"I7 loss.drop.{i}.link")


def read_script(net, entries):
    """The entries of a script: a choice, or a number of passes."""
    script, passes = [], 0
    for i, entry in enumerate(entries):
        word, space, number = entry.partition(" ")
        if word == "pass" and space and is_decimal(number, MOST_PASSES) and number != "0":
            passes += int(number)
            script.append(int(number))
        elif entry in net.choice_of:
            script.append(net.choice_of[entry])
        else:
            raise Refusal(f"I8 script.{i}")
        if passes > MOST_PASSES:
            raise Refusal(f"I8 script.{i}")
    return script


def check_sums(net, snapshot, flows, raws):
    """Refuses too many packets, wide ids in frames of version 1, and too many rows."""
    packets = sum(flow.count for flow in flows) + len(raws)
    if packets > MOST_PACKETS:
        raise Refusal(f"I10 {packets}")
    if snapshot.bits > 8:
        if snapshot.version == 1:
            raise Refusal("I11 snapshot.version")
        for i, cable in enumerate(net.cables):
            if cable.version == 1:
                raise Refusal(f"I11 cable.{i}.version")
    rows = snapshot.count * len(net.units)
    if rows > MOST_ROWS:
        raise Refusal(f"I12 {rows}")


# The net: devices, cables and hosts; its actors, units, links and choices.


@dataclass(frozen=True)
class Choice:
    """What an actor can do in a turn: take from a link, or an action of its own.

    A link has the spelling of the choice that takes from it. `channel` says which of the actor's
    links it is, and `loses` is the kind of link that can lose messages.
    """

    actor: str
    channel: str
    takes: bool = True
    loses: str = ""

    @cached_property
    def spelling(self):
        return f"{self.actor} {self.channel}"


@dataclass(frozen=True)
class Place:
    """A port, by its device and number."""

    device: int
    port: int


@dataclass(frozen=True)
class UnitSite:
    """A processing unit of a net: its name, device, port, side and data channels."""

    name: str
    place: Place
    is_ingress: bool
    channels: tuple

    @property
    def stamped(self):
        """The channels with a last-seen number: the data channels and, at an ingress unit, initiations."""
        return (*self.channels, "init") if self.is_ingress else self.channels


@dataclass
class Net:
    """A net: its parts, what each port is joined to, its units and its choices.

    A port with a cable has a peer, the port at the other end; one with a host has that host's place.
    """

    devices: list
    cables: list
    hosts: list
    peers: dict
    host_places: list
    place_hosts: dict
    units: list = field(default_factory=list)
    choices: list = field(default_factory=list)

    def __post_init__(self):
        for device in range(len(self.devices)):
            for port in self.used_ports(device):
                self.add_units(Place(device, port))
        self.choices = self.list_choices()
        self.choice_of = {choice.spelling: choice for choice in self.choices}

    def used_ports(self, device):
        ports = range(self.devices[device].ports)
        places = [Place(device, port) for port in ports]
        return [place.port for place in places if place in self.peers or place in self.place_hosts]

    def device_name(self, device):
        return self.devices[device].name

    def place_name(self, place):
        return f"{self.device_name(place.device)}.{place.port}"

    def add_units(self, place):
        name = self.place_name(place)
        cables = ("cable",) if place in self.peers else ()
        crossbar = tuple(f"x{port}" for port in self.used_ports(place.device))
        self.units.append(UnitSite(f"in {name}", place, True, cables))
        self.units.append(UnitSite(f"out {name}", place, False, crossbar))

    def units_of(self, device):
        return [unit for unit in self.units if unit.place.device == device]

    def list_choices(self):
        """All choices, actor by actor: each actor's links, then its own actions."""
        choices = [Choice("observer", f"done:{device.name}") for device in self.devices]
        choices += [Choice("observer", action, takes=False) for action in ("issue", "resend")]
        for device in range(len(self.devices)):
            choices += self.control_choices(device)
            for unit in self.units_of(device):
                choices += self.unit_choices(unit)
        for host in self.hosts:
            choices += [Choice(f"host {host.name}", "net")]
            choices += [Choice(f"host {host.name}", "inject", takes=False)]
        return choices

    def control_choices(self, device):
        actor = f"control {self.device_name(device)}"
        choices = [Choice(actor, "begin")]
        for unit in self.units_of(device):
            choices.append(Choice(actor, f"notice:{short_name(unit)}", loses="notice"))
            choices.append(Choice(actor, f"dump:{short_name(unit)}"))
        return choices + [Choice(actor, "sweep", takes=False)]

    def unit_choices(self, unit):
        if not unit.is_ingress:
            choices = [Choice(unit.name, channel, loses="crossbar") for channel in unit.channels]
        else:
            outer = Choice(unit.name, "host")
            if unit.place in self.peers:
                outer = Choice(unit.name, "cable", loses="cable")
            choices = [outer, Choice(unit.name, "init", loses="init")]
        return choices + [Choice(unit.name, "poll")]

    @cached_property
    def distances(self):
        """For each host, how many cables each device is away from it; none where no way leads."""
        return [self.distances_to(place.device) for place in self.host_places]

    def distances_to(self, target):
        far = {target: 0}
        waiting = deque([target])
        while waiting:
            device = waiting.popleft()
            for _, peer in self.cable_ports(device):
                if peer.device not in far:
                    far[peer.device] = far[device] + 1
                    waiting.append(peer.device)
        return far

    def cable_ports(self, device):
        places = [Place(device, port) for port in self.used_ports(device)]
        return [(place.port, self.peers[place]) for place in places if place in self.peers]

    @cached_property
    def next_ports(self):
        """For each device and host, the ports of the device by which shortest ways begin."""
        return {
            (device, host): self.ports_towards(device, host)
            for device in range(len(self.devices))
            for host in range(len(self.hosts))
        }

    def ports_towards(self, device, host):
        far = self.distances[host]
        if device not in far:
            return []
        if far[device] == 0:
            return [self.host_places[host].port]
        return [port for port, peer in self.cable_ports(device) if far[peer.device] + 1 == far[device]]


def short_name(unit):
    """How a control plane's links name a unit of its device: `in.0` or `out.0`."""
    return f"{'in' if unit.is_ingress else 'out'}.{unit.place.port}"


def find_place(text, devices, path):
    """The place that a port's text names. A device that isn't there is refused."""
    name, _, number = text.rpartition(".")
    for i, device in enumerate(devices):
        if device.name == name:
            return Place(i, int(number))
    raise Refusal(f"I7 {path}")


def build_net(devices, cables, hosts):
    """The net of these parts, or the first fault that applies."""
    ends = []
    for i, cable in enumerate(cables):
        a = find_place(cable.a, devices, f"cable.{i}.a")
        ends.append((a, find_place(cable.b, devices, f"cable.{i}.b")))
    places = [find_place(host.at, devices, f"host.{i}.at") for i, host in enumerate(hosts)]
    check_ports(devices, ends, places)
    check_uses(ends, places)
    check_twice([device.name for device in devices], "device")
    check_twice([host.name for host in hosts], "host")
    peers = {a: b for a, b in ends} | {b: a for a, b in ends}
    at = {place: i for i, place in enumerate(places)}
    return Net(devices, cables, hosts, peers, places, at)


def check_ports(devices, ends, places):
    if not devices:
        raise Refusal("I9 N1")
    if len(devices) > 64:
        raise Refusal(f"I9 N2 {len(devices)}")
    for i, device in enumerate(devices):
        if not 1 <= device.ports <= 8:
            raise Refusal(f"I9 N3 device.{i}")
    for i, pair in enumerate(ends):
        if any(end.port >= devices[end.device].ports for end in pair):
            raise Refusal(f"I9 N4 cable.{i}")
    for i, place in enumerate(places):
        if place.port >= devices[place.device].ports:
            raise Refusal(f"I9 N4 host.{i}")


def check_uses(ends, places):
    used = set()
    for i, pair in enumerate(ends):
        for end in pair:
            if end in used:
                raise Refusal(f"I9 N5 cable.{i}")
            used.add(end)
    if len(places) > 128:
        raise Refusal(f"I9 N6 {len(places)}")
    for i, place in enumerate(places):
        if place in used:
            raise Refusal(f"I9 N7 host.{i}")
        used.add(place)


def check_twice(names, path):
    for i, name in enumerate(names):
        if name in names[:i]:
            raise Refusal(f"I9 N8 {path}.{i}")


# Losses: a generator for each link, PCG XSH RR 64/32, whose state is the seed and whose stream is the link's number.


class Pcg32:
    """The generator PCG XSH RR 64/32 of a state and a stream."""

    MULTIPLIER = 6364136223846793005
    MASK = 2**64 - 1

    def __init__(self, state, stream):
        self.increment = (2 * stream + 1) & self.MASK
        self.state = (state + self.increment) & self.MASK
        self.step()

    def step(self):
        self.state = (self.state * self.MULTIPLIER + self.increment) & self.MASK

    def word(self):
        state = self.state
        self.step()
        mixed = (((state >> 18) ^ state) >> 27) & 0xFFFFFFFF
        turn = state >> 59
        return (mixed >> turn | mixed << (-turn & 31)) & 0xFFFFFFFF


class Link:
    """A link, first in, first out. It loses a put by its word, or where its number is listed."""

    def __init__(self, rate, drops, generator):
        self.held = deque()
        self.puts = 0
        self.lost = 0
        self.rate = rate
        self.drops = drops
        self.generator = generator

    def put(self, message):
        self.puts += 1
        by_word = self.rate > 0 and self.generator.word() % 1000 < self.rate
        if by_word or self.puts in self.drops:
            self.lost += 1
        else:
            self.held.append(message)


# Messages and frames.


@dataclass(frozen=True)
class Packet:
    source: int
    target: int
    sequence: int
    bytes: int
    hops: int


@dataclass(frozen=True)
class Stamped:
    """What goes between units: a packet, a probe or an initiation (both without a packet).

    The stamp is wrapped. `sent` is the turn that put it, of which no actor knows.
    """

    stamp: int
    packet: Packet | None
    sent: int


@dataclass(frozen=True)
class Dump:
    """A unit's registers, wrapped: its number and the last-seen numbers of its channels."""

    number: int
    last_seen: tuple


@dataclass(frozen=True)
class Done:
    """What a unit of a device has reached, as its control plane reports it."""

    unit: str
    reached: int


def plain_frame(packet):
    """The 24 bytes of a host's packet."""
    fields = [
        (0, 1), (0, 1), (0, 2),
        (packet.source, 2), (packet.target, 2), (packet.sequence, 4), (packet.bytes, 2), (packet.hops, 1),
        (1, 1), (0, 2), (0, 6),
    ]  # fmt: skip
    return b"".join(value.to_bytes(size, "big") for value, size in fields)


def read_plain(frame):
    """The packet of a plain frame, or none where the bytes are anything else."""
    if len(frame) != 24 or any(frame[0:4]) or frame[15] != 1 or any(frame[16:24]):
        return None
    number = [int.from_bytes(frame[i:j], "big") for i, j in ((4, 6), (6, 8), (8, 12), (12, 14), (14, 15))]
    return Packet(*number)


def unwrap(wrapped, known, modulus):
    """The least number from the known one on that is the same modulo M."""
    return known + (wrapped - known) % modulus


# The actors.


@dataclass(frozen=True)
class Save:
    """What a unit had counted when it adopted a number."""

    number: int
    packets: int
    bytes: int


@dataclass(frozen=True)
class Receipt:
    """A data packet that a unit took: when, where from, its stamp, and how the unit stood.

    `number` is the unit's number as the packet was counted, and `saved` how many saves it had: so the
    saves to which the packet is credited are the last of these above the stamp.
    """

    turn: int
    sent: int
    channel: str
    stamp: int | None
    bytes: int
    number: int
    saved: int


class Unit:
    """A processing unit, and its history: its saves and its receipts.

    It is told where it has taken nothing since it last answered a poll.
    """

    def __init__(self, site, world):
        self.site = site
        self.world = world
        self.number = 0
        self.packets = 0
        self.bytes = 0
        self.last_seen = dict.fromkeys(site.stamped, 0)
        self.saves = []
        self.receipts = []
        self.drops = {"bad": 0, "expired": 0, "noroute": 0}
        self.is_told = True

    def take(self, channel, message):
        self.is_told = channel == "poll"
        if channel == "poll":
            self.answer_poll()
        elif channel == "host":
            self.take_from_host(message)
        else:
            self.take_stamped(channel, message)

    def take_from_host(self, frame):
        packet = read_plain(frame)
        if packet is None:
            self.drops["bad"] += 1
            return
        self.count("host", None, packet, 0)
        self.route(packet)

    def take_stamped(self, channel, message):
        """The rules of a unit that takes a stamped message. What is credited, its receipts and saves tell."""
        seen = self.last_seen[channel]
        stamp = unwrap(message.stamp, seen, self.world.modulus)
        own = unwrap(self.number % self.world.modulus, seen, self.world.modulus)
        if stamp > own:
            self.adopt(self.number + stamp - own)
        self.last_seen[channel] = stamp
        if message.packet is not None:
            self.count(channel, stamp, message.packet, message.sent)
        self.pass_on(channel, message.packet)
        if stamp != seen:
            self.world.put(self.notice_link(), None)

    def adopt(self, number):
        self.saves.append(Save(number, self.packets, self.bytes))
        self.number = number

    def count(self, channel, stamp, packet, sent):
        turn = self.world.now
        receipt = Receipt(turn, sent, channel, stamp, packet.bytes, self.number, len(self.saves))
        self.receipts.append(receipt)
        self.packets += 1
        self.bytes += packet.bytes

    def pass_on(self, channel, packet):
        """Sends a message on. A probe ends at an ingress unit."""
        if self.site.is_ingress:
            if packet is not None:
                self.route(packet)
            elif channel == "init":
                self.probe_crossbar()
        elif packet is not None:
            self.send_out(packet)
        elif channel == f"x{self.site.place.port}":
            self.send_probe()

    def route(self, packet):
        """An ingress unit sends a packet to the egress unit of the next port on its route."""
        ports = self.world.net.next_ports.get((self.site.place.device, packet.target), [])
        if packet.hops == 0:
            self.drops["expired"] += 1
        elif not ports:
            self.drops["noroute"] += 1
        else:
            left = Packet(packet.source, packet.target, packet.sequence, packet.bytes, packet.hops - 1)
            self.put_stamped(self.crossbar_link(ports[0]), left)

    def probe_crossbar(self):
        for port in self.world.net.used_ports(self.site.place.device):
            self.put_stamped(self.crossbar_link(port), None)

    def send_out(self, packet):
        """An egress unit puts a packet on its cable or hands it to its host."""
        net, place = self.world.net, self.site.place
        if place in net.peers:
            self.put_stamped(self.cable_link(), packet)
        else:
            host = net.hosts[net.place_hosts[place]]
            self.world.put(f"host {host.name} net", plain_frame(packet))

    def send_probe(self):
        if self.site.place in self.world.net.peers:
            self.put_stamped(self.cable_link(), None)

    def put_stamped(self, link, packet):
        self.world.put(link, Stamped(self.number % self.world.modulus, packet, self.world.now))

    def crossbar_link(self, port):
        device = self.world.net.device_name(self.site.place.device)
        return f"out {device}.{port} x{self.site.place.port}"

    def cable_link(self):
        net = self.world.net
        return f"in {net.place_name(net.peers[self.site.place])} cable"

    def control_name(self):
        return f"control {self.world.net.device_name(self.site.place.device)}"

    def notice_link(self):
        return f"{self.control_name()} notice:{short_name(self.site)}"

    def answer_poll(self):
        modulus = self.world.modulus
        seen = tuple(seen % modulus for seen in self.last_seen.values())
        self.world.put(f"{self.control_name()} dump:{short_name(self.site)}", Dump(self.number % modulus, seen))


@dataclass
class KnownUnit:
    """What a control plane knows of a unit: its registers, and how it is being polled."""

    site: UnitSite
    number: int
    last_seen: list
    outstanding: bool = False
    again: bool = False


class Control:
    """The control plane of a device."""

    def __init__(self, device, world):
        self.name = world.net.device_name(device)
        self.world = world
        sites = world.net.units_of(device)
        self.units = {short_name(site): KnownUnit(site, 0, [0] * len(site.stamped)) for site in sites}

    def take(self, channel, message):
        kind, _, unit = channel.partition(":")
        if kind == "begin":
            self.begin(message)
        elif kind == "notice":
            self.ask(self.units[unit])
        else:
            self.take_dump(self.units[unit], message)

    def begin(self, number):
        for unit in self.units.values():
            if unit.site.is_ingress:
                initiation = Stamped(number % self.world.modulus, None, self.world.now)
                self.world.put(f"{unit.site.name} init", initiation)

    def ask(self, unit):
        """Polls a unit, or notes that it is to be polled again after the dump that is under way."""
        if unit.outstanding:
            unit.again = True
        else:
            unit.outstanding = True
            self.world.put(f"{unit.site.name} poll", None)

    def take_dump(self, unit, dump):
        """Reports what a unit has reached. A number of initiations counts in it as those of data do."""
        modulus = self.world.modulus
        unit.number = unwrap(dump.number, unit.number, modulus)
        unit.last_seen = [unwrap(new, old, modulus) for new, old in zip(dump.last_seen, unit.last_seen)]
        reached = min([unit.number] + unit.last_seen)
        self.world.put(f"observer done:{self.name}", Done(unit.site.name, reached))
        asked, unit.outstanding, unit.again = unit.again, False, False
        if asked:
            self.ask(unit)

    def may(self, action):
        """A sweep that would change nothing is idle."""
        return not all(unit.again for unit in self.units.values())

    def act(self, action):
        """Sweeps: asks all units."""
        for unit in self.units.values():
            self.ask(unit)


class Observer:
    """Asks for snapshots, within its window."""

    def __init__(self, world):
        self.world = world
        self.issued = 0
        self.resent = 0
        self.reached = {site.name: 0 for site in world.net.units}

    def floor(self):
        """The least number that all units are told to have reached. Without units it is the last issued."""
        return min(self.reached.values(), default=self.issued)

    def take(self, channel, done):
        self.reached[done.unit] = done.reached

    def may(self, action):
        """Retries are those of the whole run, and there is none where all that was issued is collected."""
        snapshot = self.world.input.snapshot
        if action == "issue":
            return self.issued < snapshot.count and self.issued + 1 <= self.floor() + snapshot.window
        return self.issued > self.floor() and self.resent < snapshot.retries

    def act(self, action):
        if action == "issue":
            self.issued += 1
        else:
            self.resent += 1
        for device in self.world.net.devices:
            self.world.put(f"control {device.name} begin", self.issued)


class HostActor:
    """Sends the packets of its flows and then its raw frames, and counts what it is sent."""

    def __init__(self, index, world):
        net = world.net
        self.world = world
        self.link = f"in {net.place_name(net.host_places[index])} host"
        self.frames = frames_of(world.input, index)
        self.sent = 0
        self.delivered = 0

    def take(self, channel, message):
        self.delivered += 1

    def may(self, action):
        return self.sent < len(self.frames)

    def act(self, action):
        self.world.put(self.link, self.frames[self.sent])
        self.sent += 1


def frames_of(source, index):
    """What the host at this place sends: its flows in the order of the input, then its raw frames."""
    names = [host.name for host in source.net.hosts]
    frames = []
    for flow in source.flows:
        if flow.source == names[index]:
            target = names.index(flow.target)
            packets = [Packet(index, target, number, flow.bytes, flow.hops) for number in range(flow.count)]
            frames += [plain_frame(packet) for packet in packets]
    return frames + [raw.frame for raw in source.raws if raw.source == names[index]]


# Turns, and the end of a run.


class World:
    """A net with its links and actors, and the book of the turns that did something."""

    def __init__(self, source):
        self.input = source
        self.net = source.net
        self.modulus = 2**source.snapshot.bits
        self.links = make_links(source)
        self.units = [Unit(site, self) for site in self.net.units]
        self.controls = [Control(device, self) for device in range(len(self.net.devices))]
        self.observer = Observer(self)
        self.hosts = [HostActor(index, self) for index in range(len(self.net.hosts))]
        self.actors = self.name_actors()
        self.book = []
        self.settling = [choice for choice in self.net.choices if choice.channel not in ("sweep", "resend")]
        self.unissued = [choice for choice in self.settling if choice.channel != "issue"]

    def name_actors(self):
        actors = {"observer": self.observer}
        actors |= {f"control {control.name}": control for control in self.controls}
        actors |= {unit.site.name: unit for unit in self.units}
        names = [host.name for host in self.net.hosts]
        return actors | {f"host {name}": host for name, host in zip(names, self.hosts)}

    @property
    def now(self):
        """The number of the turn that is being taken, from 1."""
        return len(self.book)

    def put(self, link, message):
        self.links[link].put(message)

    def turn(self, choice):
        """Takes a turn, and tells whether it did something."""
        actor = self.actors[choice.actor]
        if choice.takes:
            held = self.links[choice.spelling].held
            if not held:
                return False
            self.book.append(choice.spelling)
            actor.take(choice.channel, held.popleft())
            return True
        if not actor.may(choice.channel):
            return False
        self.book.append(choice.spelling)
        actor.act(choice.channel)
        return True

    def take_pass(self, choices):
        return sum([self.turn(choice) for choice in choices]) > 0

    def settle(self):
        while self.take_pass(self.settling):
            pass

    def take_script(self):
        """Takes the entries of the script. Its passes don't issue."""
        for entry in self.input.script:
            if isinstance(entry, Choice):
                self.turn(entry)
            else:
                self.take_passes(entry, self.unissued)

    def take_passes(self, count, choices):
        """Takes this many passes. Where one does nothing, those after it do nothing either."""
        for _ in range(count):
            if not self.take_pass(choices):
                return

    def standing(self):
        return self.observer.floor(), self.observer.issued

    def is_collected(self):
        count = self.input.snapshot.count
        return self.standing() == (count, count)

    def finish(self):
        """Settles, sweeps and resends until all is collected or nothing helps."""
        resend = self.net.choice_of["observer resend"]
        self.settle()
        while not self.is_collected():
            before = self.standing()
            for device in self.net.devices:
                self.turn(self.net.choice_of[f"control {device.name} sweep"])
            self.settle()
            if self.standing() == before and not self.turn(resend):
                return
            self.settle()

    def is_finished(self):
        """Whether nothing is left to do. It is settled, and all is collected, or all units told, without a retry left."""
        if any(link.held for link in self.links.values()):
            return False
        if self.observer.may("issue") or any(host.may("inject") for host in self.hosts):
            return False
        if self.is_collected():
            return True
        return all(unit.is_told for unit in self.units) and not self.observer.may("resend")


def make_links(source):
    """The links of a net by their spellings."""
    drops = {}
    for drop in source.loss.drops:
        drops.setdefault(drop.link, set()).add(drop.number)
    links = {}
    for choice in source.net.choices:
        if choice.takes:
            rate = source.loss.rates.get(choice.loses, 0)
            generator = Pcg32(source.loss.seed, len(links))
            links[choice.spelling] = Link(rate, drops.get(choice.spelling, set()), generator)
    return links


@lru_cache(maxsize=4)
def run(source_bytes):
    """The world that an input's run ends in: its script, and then finishing."""
    world = World(read_input(source_bytes))
    world.take_script()
    world.finish()
    return world


# Verdicts, from the final histories.


def find_pending(world, k):
    """The first unit whose number or last-seen number is below k, as the report says it."""
    for unit in world.units:
        if unit.number < k:
            return f"{unit.site.name} id {unit.number}"
        for channel in unit.site.channels:
            if unit.last_seen[channel] < k:
                return f"{unit.site.name} {channel} {unit.last_seen[channel]}"
    return None


def find_fault(world, k):
    """The first unit that makes k inconsistent, as the report says it. A skip is said first."""
    for unit in world.units:
        reached = next(save for save in unit.saves if save.number >= k)
        if reached.number > k:
            return f"{unit.site.name} skipped to {reached.number}"
        foot = find_miscredit(unit, k, world.input.snapshot.credits)
        if foot is not None:
            return f"{unit.site.name} miscredited by {foot}"
    return None


def find_miscredit(unit, k, credits):
    """The foot above k of a packet from before k. It is that of the first one."""
    for receipt in unit.receipts:
        if receipt.stamp is not None and receipt.stamp < k and receipt.saved >= credits:
            foot = unit.saves[receipt.saved - credits].number
            if foot > k:
                return foot
    return None


def first_at_floor(world):
    floor = world.observer.floor()
    return next(name for name, reached in world.observer.reached.items() if reached == floor)


def verdict(world, k):
    """The kind of the verdict on k, and what the report adds to it."""
    if k > world.observer.issued:
        return "not issued", f"{first_at_floor(world)} {world.observer.floor()}"
    pending = find_pending(world, k)
    if pending is not None:
        return "pending", pending
    fault = find_fault(world, k)
    if fault is not None:
        return "inconsistent", fault
    return "consistent", None


def cut_of(unit, k):
    """What a unit had counted when its number reached k."""
    return next(save for save in unit.saves if save.number >= k)


def row_of(unit, k):
    """A unit's line in a consistent snapshot: its counters, and what was in flight on its channels."""
    save = cut_of(unit, k)
    words = [unit.site.name, save.packets, save.bytes]
    for channel in unit.site.channels:
        late = [
            receipt.bytes
            for receipt in unit.receipts
            if receipt.channel == channel and receipt.stamp < k <= receipt.number
        ]
        words += [channel, len(late), sum(late)]
    return " ".join(str(word) for word in words)


# The texts.


def text_of(lines):
    return "".join(f"{line}\n" for line in lines)


def report_lines(world):
    net, observer = world.net, world.observer
    count = world.input.snapshot.count
    lines = ["speedlight 1"]
    lines.append(f"network devices {len(net.devices)} units {len(net.units)} hosts {len(net.hosts)}")
    lines.append(
        f"observer count {count} issued {observer.issued} collected {observer.floor()} resent {observer.resent}"
    )
    for k in range(1, count + 1):
        lines += verdict_lines(world, k)
    return lines + host_lines(world) + total_lines(world) + ["end"]


def host_lines(world):
    pairs = zip(world.net.hosts, world.hosts)
    return [f"host {host.name} sent {actor.sent} delivered {actor.delivered}" for host, actor in pairs]


def verdict_lines(world, k):
    kind, rest = verdict(world, k)
    if kind == "consistent":
        return [f"snapshot {k} consistent"] + [row_of(unit, k) for unit in world.units]
    return [f"snapshot {k} {kind} {rest}"]


def total_lines(world):
    drops = {cause: sum(unit.drops[cause] for unit in world.units) for cause in ("bad", "expired", "noroute")}
    lost = dict.fromkeys(["cable", "crossbar", "init", "notice"], 0)
    for choice in world.net.choices:
        if choice.loses:
            lost[choice.loses] += world.links[choice.spelling].lost
    return [
        "drops " + " ".join(f"{cause} {count}" for cause, count in drops.items()),
        "lost " + " ".join(f"{kind} {count}" for kind, count in lost.items()),
    ]


def trace_lines(world):
    return [f"trace {len(world.book)}", *world.book]


def step(data, with_trace):
    world = run(data)
    return text_of(report_lines(world) + (trace_lines(world) if with_trace else []))


def routes(data):
    net = read_input(data).net
    lines = []
    for (device, host), ports in net.next_ports.items():
        way = f"{ports[0]} {net.distances[host][device]}" if ports else "none"
        lines.append(f"route {net.device_name(device)} {net.hosts[host].name} {way}")
    return text_of(lines + ["end"])


def balance(data):
    world = run(data)
    net = world.net
    lines = ["balance 1"]
    for k in range(1, world.input.snapshot.count + 1):
        if verdict(world, k)[0] == "consistent":
            lines += balance_lines(world, k)
    for (device, host), ports in net.next_ports.items():
        lines.append(f"paths {net.device_name(device)} {net.hosts[host].name} {len(ports)}")
    return text_of(lines + ["end"])


def balance_lines(world, k):
    lines = []
    for i, device in enumerate(world.net.devices):
        packets = [
            cut_of(unit, k).packets
            for unit in world.units
            if unit.site.place.device == i and not unit.site.is_ingress and unit.site.place in world.net.peers
        ]
        if packets:
            spread = sum((a - b) ** 2 for j, a in enumerate(packets) for b in packets[:j])
            words = [len(packets), min(packets), max(packets), spread]
            lines.append(f"table {k} {device.name} " + " ".join(str(word) for word in words))
    return lines


def values(data):
    """What each unit had counted before each snapshot, without what was in flight."""
    world = run(data)
    lines = ["values 1"]
    for k in range(1, world.input.snapshot.count + 1):
        kind, rest = verdict(world, k)
        if kind in ("pending", "not issued"):
            lines.append(f"snapshot {k} {kind} {rest}")
            continue
        lines.append(f"snapshot {k} whole")
        cuts = [(unit.site.name, cut_of(unit, k)) for unit in world.units]
        lines += [f"{name} {save.packets} {save.bytes}" for name, save in cuts]
    return text_of(lines + host_lines(world) + ["end"])


def poll(data, start, gap):
    """What reading the units one after the other would have shown."""
    world = run(data)
    turns = len(world.book)
    read_at = {unit.site.name: min(start + i * gap, turns) for i, unit in enumerate(world.units)}
    lines = ["poll 1"]
    for unit in world.units:
        at = read_at[unit.site.name]
        counted = [receipt.bytes for receipt in unit.receipts if receipt.turn <= at]
        lines.append(f"read {unit.site.name} {at} {len(counted)} {sum(counted)}")
    return text_of(lines + [broken_line(world, read_at), "end"])


def broken_line(world, read_at):
    breaking = []
    for unit in world.units:
        for receipt in unit.receipts:
            if receipt.channel == "host" or receipt.turn > read_at[unit.site.name]:
                continue
            if receipt.sent > read_at[sender_of(world.net, unit.site, receipt.channel)]:
                breaking.append((receipt.turn, receipt.sent, f"{unit.site.name} {receipt.channel}"))
    if not breaking:
        return "whole"
    received, sent, link = min(breaking)
    return f"broken {link} sent {sent} received {received}"


def sender_of(net, site, channel):
    """The unit that puts what a unit takes from a data channel."""
    if channel == "cable":
        return f"out {net.place_name(net.peers[site.place])}"
    return f"in {net.device_name(site.place.device)}.{channel[1:]}"


# The check of a claim.


def check(stream):
    """The answer on a claim, and its status."""
    if len(stream) > MOST_STREAM_BYTES:
        raise Refusal("C1")
    return check_claim(*split_stream(stream))


def check_claim(data, claim):
    """The answer on a claim of a run of the input of these bytes."""
    world = World(read_input(data))
    end = find_line(claim, b"end\n")
    schedule = None if end is None else parse_trace(world.net, claim[end + len(b"end\n") :])
    if schedule is None:
        return "check no trace\n", 8
    for i, choice in enumerate(schedule):
        if not world.turn(choice):
            return f"check no legal {i + 1}\n", 8
    if not world.is_finished():
        return "check no finished\n", 8
    if text_of(report_lines(world)).encode() != claim[: end + len(b"end\n")]:
        return "check no report\n", 8
    return "check yes\n", 0


def find_line(text, line):
    """Where the first line that is this one begins, or none."""
    if text.startswith(line):
        return 0
    at = text.find(b"\n" + line)
    return None if at < 0 else at + 1


def split_stream(stream):
    rule = b"---\n"
    at = find_line(stream, rule)
    if at is None:
        raise Refusal("C2")
    return stream[:at], stream[at + len(rule) :]


def parse_trace(net, text):
    """The choices of a trace, or none where the text isn't the trace of a schedule of the net."""
    lines = text.split(b"\n")
    if lines.pop() != b"" or not lines or lines[0] != b"trace %d" % (len(lines) - 1):
        return None
    spellings = [line.decode("latin-1") for line in lines[1:]]
    if not all(spelling in net.choice_of for spelling in spellings):
        return None
    return [net.choice_of[spelling] for spelling in spellings]


# The samples.


def sample_input(n):
    """The text of the sample input n: two spines, and leaves with two hosts each."""
    leaves = 2 + n % 7
    devices = [f's{i}", ports = {leaves}' for i in (0, 1)] + [f'l{i}", ports = 4' for i in range(leaves)]
    cables = [f'a = "l{i}.{2 + s}", b = "s{s}.{i}"' for i in range(leaves) for s in (0, 1)]
    hosts = [f'name = "h{2 * i + p}", at = "l{i}.{p}"' for i in range(leaves) for p in (0, 1)]
    flow = f"count = {5 * n}, bytes = 100, hops = 4"
    flows = [f'from = "h{h}", to = "h{(h + 1) % (2 * leaves)}", {flow}' for h in range(2 * leaves)]
    window = 3 if n % 2 else 1
    rates = (5, 1, 20, 20) if n % 2 else (0, 0, 0, 0)
    loss = "cable = {}, crossbar = {}, init = {}, notice = {}".format(*rates)
    lists = {"device": [f'name = "{device}' for device in devices], "cable": cables, "host": hosts, "flow": flows}
    lines = [f"{key} = [" + ", ".join(f"{{{row}}}" for row in rows) + "]" for key, rows in lists.items()]
    lines.append(f"snapshot = {{bits = 2, window = {window}, ring = {window}, count = 5, retries = 3}}")
    return text_of(lines + [f"loss = {{seed = {n}, {loss}}}"])


def sample_summary(n):
    world = run(sample_input(n).encode())
    net = world.net
    kinds = [verdict(world, k)[0] for k in range(1, world.input.snapshot.count + 1)]
    sent = sum(host.sent for host in world.hosts)
    delivered = sum(host.delivered for host in world.hosts)
    names = ["consistent", "inconsistent", "pending", "not issued"]
    return text_of(
        [
            f"sample {n}",
            f"devices {len(net.devices)} units {len(net.units)} hosts {len(net.hosts)}",
            f"sent {sent} delivered {delivered}",
            " ".join(f"{name} {kinds.count(name)}" for name in names),
            f"lost {sum(link.lost for link in world.links.values())}",
            "end",
        ]
    )


# The words of a call.


USAGE = (
    "usage: speedlight step [--trace] | run [--trace] | routes | sample N [--input] | values | check | balance"
    " | poll S G"
)
OPTIONS = {"step": "--trace", "sample": "--input"}
OPERANDS = {"step": [], "routes": [], "check": [], "balance": [], "values": [], "sample": [(1, 64)]}
OPERANDS["poll"] = [(0, 1_000_000), (0, 1_000_000)]


def parse_words(words):
    """The command, its numbers and whether its option stands; a refusal where the words are none."""
    command, *rest = words or [""]
    option = OPTIONS.get(command)
    before, mark, after = rest, [], []
    if "--" in rest:
        at = rest.index("--")
        before, mark, after = rest[:at], rest[at : at + 1], rest[at + 1 :]
    numbers = [word for word in before if word != option] + after
    options = len(before) + len(after) - len(numbers)
    wanted = OPERANDS.get(command)
    fits = wanted is not None and options <= 1 and len(numbers) == len(wanted) and len(mark) <= 1
    if not fits or not all(is_decimal(word, most) for word, (_, most) in zip(numbers, wanted)):
        raise Refusal(USAGE, 2)
    operands = [int(word) for word in numbers]
    if any(operand < least for operand, (least, _) in zip(operands, wanted)):
        raise Refusal(USAGE, 2)
    return command, operands, options == 1


def answer(words, data):
    """The status, standard output and standard error of a call with these words and this input."""
    try:
        command, operands, has_option = parse_words(words)
        if command == "check":
            text, status = check(data)
            return status, text, ""
        if command == "sample":
            text = sample_input(*operands) if has_option else sample_summary(*operands)
        elif command == "step":
            text = step(data, has_option)
        elif command == "poll":
            text = poll(data, *operands)
        else:
            text = {"routes": routes, "balance": balance, "values": values}[command](data)
        return 0, text, ""
    except Refusal as refusal:
        return refusal.status, "", f"speedlight: {refusal.text}\n"


def main():
    words = sys.argv[1:]
    reads = bool(words) and words[0] in OPERANDS and words[0] != "sample"
    data = sys.stdin.buffer.read() if reads else b""
    status, text, fault = answer(words, data)
    sys.stdout.buffer.write(text.encode())
    sys.stderr.buffer.write(fault.encode())
    return status


if __name__ == "__main__":
    sys.exit(main())
