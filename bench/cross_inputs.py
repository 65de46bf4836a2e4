"""Random inputs for bench/cross: small nets with flows, losses and scripts, a part of them broken."""

import json
import random
from dataclasses import dataclass

import replay


@dataclass(frozen=True)
class Trial:
    """One input, the numbers of its polled readings, and a word for how it was made."""

    data: bytes
    readings: list
    made: str


def make_trial(seed, index):
    """The trial at this place of the list that a seed begins."""
    draw = random.Random(f"{seed}.{index}")
    document = make_document(draw)
    made = "whole"
    if draw.random() < 0.35:
        way = draw.choices(list(WEIGHTS), WEIGHTS.values())[0]
        made, document = way.__name__, way(draw, document)
    data = document if isinstance(document, bytes) else write_document(draw, document).encode()
    if draw.random() < 0.1:
        made, data = "byte", break_byte(draw, data)
    return Trial(data, [make_reading(draw) for _ in range(3)], made)


def make_reading(draw):
    """The two numbers of a polled reading."""
    start = draw.choice([0, draw.randrange(20), draw.randrange(60), draw.randrange(200), draw.randrange(1_000_001)])
    return start, draw.choice([1, 1, 2, 3, 5, 9, draw.randrange(1_000_001)])


# Whole documents.


def make_document(draw):
    document = {}
    free = make_devices(draw, document)
    make_cables(draw, document, free)
    make_hosts(draw, document, free)
    make_snapshot(draw, document)
    make_traffic(draw, document)
    net = net_of(document)
    make_loss(draw, document, net)
    make_script(draw, document)
    return document


def make_devices(draw, document):
    """Adds 1 to 6 devices, and gives their free ports in a random order."""
    most = draw.choice([1, 2, 3, 3, 4, 4, 5, 8])
    names = draw.sample(["a", "b", "s0", "s1", "l_0", "z9", "_", "leaf_leaf_leaf_1"], draw.randint(1, 6))
    document["device"] = [{"name": name, "ports": draw.randint(1, most)} for name in names]
    free = [f"{device['name']}.{port}" for device in document["device"] for port in range(device["ports"])]
    draw.shuffle(free)
    return free


def make_cables(draw, document, free):
    cables = []
    while len(free) >= 3 and draw.random() < 0.75:
        cable = {"a": free.pop(), "b": free.pop()}
        if draw.random() < 0.2:
            cable["version"] = draw.randint(1, 2)
        cables.append(cable)
    if cables or draw.random() < 0.5:
        document["cable"] = cables


def make_hosts(draw, document, free):
    hosts = []
    while free and len(hosts) < 5 and (not hosts or draw.random() < 0.85):
        hosts.append({"name": f"h{len(hosts)}", "at": free.pop()})
    if hosts or draw.random() < 0.5:
        document["host"] = hosts


def make_snapshot(draw, document):
    bits = draw.choice([1, 1, 2, 2, 2, 3, 4, 8, 9, 16, draw.randint(1, 16)])
    window = min(2**bits - 1, draw.choice([1, 1, 2, 3, draw.randint(1, 12), 1024]))
    ring = min(1024, draw.choice([window, 2**bits, draw.randint(window, 2**bits)]))
    snapshot = {"bits": bits, "window": window, "ring": ring, "count": draw.choice([0, 1, 1, 2, 2, 3, 4, 6, 9, 15])}
    if draw.random() < 0.6:
        snapshot["retries"] = draw.choice([0, 1, 2, 3, 5])
    if draw.random() < 0.4:
        snapshot["credits"] = draw.randint(1, 4)
    if bits > 8 and draw.random() < 0.97:
        snapshot["version"] = 2
        for cable in document.get("cable", []):
            if cable.get("version") == 1 and draw.random() < 0.8:
                del cable["version"]
    elif draw.random() < 0.2:
        snapshot["version"] = draw.randint(1, 2)
    document["snapshot"] = snapshot


def make_traffic(draw, document):
    names = [host["name"] for host in document.get("host", [])]
    if not names:
        return
    flows = []
    while len(flows) < 5 and draw.random() < 0.8:
        hops = draw.choice([8, 8, 8, 255, draw.randint(0, 4)])
        ends = {"from": draw.choice(names), "to": draw.choice(names)}
        flows.append(ends | {"count": draw.randint(0, 9), "bytes": draw.choice([0, 1, 100, 65535]), "hops": hops})
    if flows:
        document["flow"] = flows
    raws = []
    while len(raws) < 4 and draw.random() < 0.25:
        raws.append({"from": draw.choice(names), "hex": make_frame(draw, len(names)).hex()})
    if raws:
        document["raw"] = raws


def make_frame(draw, hosts):
    """A plain frame, most often with a byte or two that it hasn't."""
    packet = replay.Packet(draw.randrange(9), draw.randrange(hosts + 1), draw.getrandbits(32), 64, draw.randrange(9))
    frame = bytearray(replay.plain_frame(packet))
    for _ in range(draw.randrange(3)):
        at = draw.choice([0, 15, 17, draw.randrange(24)])
        frame[at] = draw.choice([0, 1, 2, 3, 255, draw.randrange(256)])
    if draw.random() < 0.2:
        frame = frame[: draw.randrange(25)] + bytes(draw.randrange(9))
    return bytes(frame)


def make_loss(draw, document, net):
    if draw.random() < 0.4:
        return
    loss = {}
    if draw.random() < 0.7:
        loss["seed"] = draw.choice([0, 1, draw.randrange(1000), draw.getrandbits(63)])
    for kind in ("cable", "crossbar", "init", "notice"):
        if draw.random() < (0.6 if kind == "init" else 0.3):
            loss[kind] = draw.choice([0, 20, 100, 300, 500, 999, 1000])
    lossy = [choice.spelling for choice in net.choices if choice.loses]
    drops = []
    while lossy and len(drops) < 6 and draw.random() < 0.5:
        drops.append({"link": draw.choice(lossy), "n": draw.randint(1, 4)})
    if drops:
        loss["drop"] = drops
    document["loss"] = loss


def net_of(document):
    parts = [document["device"], document.get("cable", []), document.get("host", [])]
    devices = [replay.Device(device["name"], device["ports"]) for device in parts[0]]
    cables = [replay.Cable(cable["a"], cable["b"], 1) for cable in parts[1]]
    return replay.build_net(devices, cables, [replay.Host(host["name"], host["at"]) for host in parts[2]])


def make_script(draw, document):
    """Adds a random walk: mostly turns that do something, a few that don't, and passes.

    Some links are seldom taken from, so that packets come late.
    """
    if draw.random() < 0.3:
        return
    try:
        world = replay.World(replay.read_input(write_document(draw, document, plain=True).encode()))
    except replay.Refusal:
        return
    entries = []
    favoured = draw.choice([None, "host", "observer", "in", "out", "control"])
    slow = draw.choice([0, 0, 0.1, 0.3]) if draw.random() < 0.8 else 0.6
    quick = [choice for choice in world.net.choices if not choice.takes or draw.random() >= slow]
    for _ in range(draw.choice([3, 10, 30, 80, 150])):
        entries.append(next_entry(draw, world, favoured, quick))
    document["script"] = {"entries": entries}


def next_entry(draw, world, favoured, quick):
    if draw.random() < 0.04:
        count = draw.choice([1, 2, 3, 7])
        world.take_passes(count, world.unissued)
        return f"pass {count}"
    choice = draw.choice(world.net.choices)
    if draw.random() < 0.95:
        live = [choice for choice in quick if can_take(draw, world, choice)]
        liked = [choice for choice in live if choice.actor.split(" ")[0] == favoured]
        rare = [choice for choice in live if choice.takes] if draw.random() < 0.5 else live
        choice = draw.choice(liked if liked and draw.random() < 0.5 else rare or [choice])
    world.turn(choice)
    return choice.spelling


def can_take(draw, world, choice):
    if choice.takes:
        return bool(world.links[choice.spelling].held)
    is_dear = choice.channel in ("sweep", "resend") and draw.random() < 0.7
    return not is_dear and world.actors[choice.actor].may(choice.channel)


# Their texts.


def write_document(draw, document, plain=False):
    """A document as TOML: inline tables, or tables under headings."""
    inline, headed = [], []
    for key, value in document.items():
        under = not plain and is_tabular(value) and draw.random() < 0.3
        (headed if under else inline).append((key, value))
    text = "".join(f"{write_key(key)} = {write_value(value)}\n" for key, value in inline)
    return text + "".join(write_headed(key, value) for key, value in headed)


def is_tabular(value):
    return isinstance(value, dict) or bool(value) and isinstance(value, list) and is_tables(value)


def is_tables(value):
    return all(isinstance(entry, dict) for entry in value)


def write_headed(key, value):
    tables = value if isinstance(value, list) else [value]
    heading = f"[[{write_key(key)}]]" if isinstance(value, list) else f"[{write_key(key)}]"
    lines = []
    for table in tables:
        lines.append(heading)
        lines += [f"{write_key(name)} = {write_value(entry)}" for name, entry in table.items()]
    return "\n" + "\n".join(lines) + "\n"


def write_key(key):
    bare = key and key.isascii() and key.replace("_", "a").replace("-", "a").isalnum()
    return key if bare else json.dumps(key)


def write_value(value):
    if isinstance(value, Literal):
        return value.text
    if isinstance(value, dict):
        return "{" + ", ".join(f"{write_key(key)} = {write_value(entry)}" for key, entry in value.items()) + "}"
    if isinstance(value, list):
        return "[" + ", ".join(write_value(entry) for entry in value) + "]"
    return json.dumps(value)


@dataclass(frozen=True)
class Literal:
    """A value that is written as it stands."""

    text: str


# Broken documents.


def tables_of(document):
    """All tables of a document, the top table among them."""
    tables = [document]
    for value in document.values():
        if isinstance(value, dict):
            tables += tables_of(value)
        elif isinstance(value, list):
            tables += [table for entry in value if isinstance(entry, dict) for table in tables_of(entry)]
    return tables


def some_place(draw, document, is_kind):
    """A table and its key of a value of this kind: one such pair in a list, or none."""
    tables = tables_of(document)
    favoured = [document, document.get("snapshot"), document.get("loss")]
    tables += [table for table in favoured if isinstance(table, dict)] * (len(tables) // 6)
    places = [(table, key) for table in tables for key, value in table.items() if is_kind(value)]
    return draw.sample(places, min(1, len(places)))


def is_value(value):
    return True


def is_number(value):
    return type(value) is int


def is_text(value):
    return isinstance(value, str)


def is_list(value):
    return isinstance(value, list)


def lose_key(draw, document):
    for table, key in some_place(draw, document, is_value):
        del table[key]
    return document


def add_key(draw, document):
    keys = ["x", "", "Name", "n", "a", "device", "version", "seed", "\u00e9", "drop", "a b"]
    for table, _ in some_place(draw, document, is_value):
        table[draw.choice(keys)] = 1
    return document


def swap_kind(draw, document):
    texts = ["1.0", "0.5", "true", "inf", "1979-05-27", "1979-05-27T07:32:00Z", "07:32:00", "-0", "+1", "0x2", "1_0"]
    values = [Literal(draw.choice(texts)), "", "a", 1, [], [1], [[]], {}, [{}], ["a"], [{}, 1], {"a": 1}]
    for table, key in some_place(draw, document, is_value):
        table[key] = draw.choice(values)
    return document


def spoil_entry(draw, document):
    """Puts a value of another kind into a list."""
    for table, key in some_place(draw, document, is_list):
        entries = table[key]
        entries.insert(draw.randint(0, len(entries)), draw.choice([1, "a", {}, [], True, Literal("1.5")]))
    return document


def spoil_number(draw, document):
    for table, key in some_place(draw, document, is_number):
        far = [-1, 0, 9, 17, 256, 1025, 65536, 100_001, 10**9 + 1, 2**63 - 1, -(2**63), 2**63, -(2**63) - 1, 10**30]
        if table is document.get("snapshot") and key == "count":
            far = [-1, 40, 100_001, 2**63]
        table[key] = draw.choice(far if draw.random() < 0.6 or key == "n" else range(10))
    return document


def spoil_text(draw, document):
    others = ["", "a", "h0", "h9", "A", "a.0", "a.1", "a.9", "a.00", "a.-1", "a.+1", "a.65535", "a.65536", "a.", ".0"]
    others += ["a" * 16, "a" * 17, "\u00e9", "a.0.0", "a b", "a\n", "\u0663"]
    others += ["in a.0 init", "in a.0 host", "out a.0 x0"]
    for table, key in some_place(draw, document, is_text):
        text = table[key]
        spoiled = text[: draw.randrange(len(text) + 1)] + draw.choice(["", "0", "G", ".", " "])
        table[key] = draw.choice([draw.choice(others), spoiled, "00" * draw.choice([64, 65])])
    return document


def spoil_script(draw, document):
    entries = document.setdefault("script", {}).setdefault("entries", [])
    words = ["pass 0", "pass 10000", "pass 10001", "pass 01", "pass", "pass  1", "pass 1 ", "pass -1", "pass +1"]
    words += ["pass 1_0", "pass 1.0", "observer issue ", " observer issue", "Observer issue", "observer done", ""]
    words += ["observer sweep", "control a begin", "in a.0 cable", "in a.0 host", "out a.0 x7", "out a.00 x0"]
    words += ["host h0 poll", "control zz sweep", "observer done:a", "pass 10000", "pass 99999999999999999999"]
    for _ in range(draw.randint(1, 3)):
        entries.insert(draw.randint(0, len(entries)), draw.choice(words))
    return document


def break_net(draw, document):
    """Takes a name or a port twice, cables a port with itself, or changes the devices below cables and hosts."""
    cables, hosts = document.setdefault("cable", []), document.setdefault("host", [])
    devices = document["device"]
    ports = [cable[end] for cable in cables for end in ("a", "b")] + [host["at"] for host in hosts]
    port = draw.choice(ports or ["a.0"])
    other = draw.choice(ports or ["a.1"])
    ways = [
        lambda: devices.append(dict(draw.choice(devices))),
        lambda: cables.append({"a": port, "b": draw.choice([port, other])}),
        lambda: hosts.append({"name": draw.choice(["h0", "h8"]), "at": port}),
        lambda: devices.insert(0, {"name": draw.choice(["a", "q"]), "ports": draw.choice([0, 1, 2, 8, 9, 65535])}),
        lambda: draw.choice(devices).update(ports=draw.choice([0, 1, 2, 9])),
        lambda: draw.choice(devices).update(name="zz"),
        lambda: document.update(device=[], cable=cables * draw.randint(0, 1), host=hosts * draw.randint(0, 1)),
    ]
    for way in draw.sample(ways, draw.randint(1, 2)):
        way()
    return document


def make_large(draw, document):
    """Goes beyond a limit of the whole input."""
    names = [host["name"] for host in document.get("host", [])] or ["h0"]
    flow = {"from": names[0], "to": names[-1], "count": 20_000, "bytes": 1, "hops": 1}
    units = 2 * len(document.get("host", [])) + 4 * len(document.get("cable", []))
    ways = [lambda: document.update(flow=[dict(flow) for _ in range(draw.randint(11, 12))])]
    many = [{"name": f"d{i}", "ports": 1} for i in range(draw.choice([58, 64, 65]))]
    ways += [lambda: document["device"].extend(many)]
    ways += [lambda: document.update(host=[{"name": f"h{i}", "at": "a.0"} for i in range(draw.choice([129, 130]))])]
    drops = [{"link": "in a.0 init", "n": 1}] * draw.choice([1000, 1001, 1002])
    ways += [lambda: document.setdefault("loss", {}).update(drop=drops)]
    if units >= 12:
        ways += [lambda: document["snapshot"].update(count=draw.choice([100_000, 99_999]))]
    draw.choice(ways)()
    return document


def break_several(draw, document):
    """Breaks a document more than once, so that the order of refusals shows."""
    ways = [lose_key, add_key, swap_kind, spoil_entry, spoil_number, spoil_text]
    if draw.random() < 0.4:
        break_net(draw, document)
    for _ in range(draw.randint(2, 4)):
        draw.choice(ways)(draw, document)
    return document


def widen(draw, document):
    """Adds so many devices of 8 ports that there are about 256 actors, and sometimes more."""
    document = {"device": [], "cable": [], "snapshot": document["snapshot"] | {"count": 1}}
    for i in range(draw.randint(12, 17)):
        document["device"].append({"name": f"d{i}", "ports": 8})
        document["cable"] += [{"a": f"d{i}.{port}", "b": f"d{i}.{port + 1}"} for port in (0, 2, 4, 6)]
    return document


def overflow(draw, document):
    """Makes a text of about as many bytes as an input may have."""
    data = write_document(draw, document).encode()
    room = 1_048_576 - len(data) - 2
    return data + b"#" + b"x" * (room + draw.choice([-1, 0, 1, 2])) + b"\n"


def break_byte(draw, data):
    """Replaces, takes out, doubles or adds bytes."""
    data = bytearray(data)
    for _ in range(draw.choice([1, 1, 1, 2, 3])):
        at = draw.randrange(len(data) + 1)
        mark = draw.choice(b'[]{}=,."\n\r\t #0123456789-+_abeEx')
        byte = draw.choice([mark, draw.randrange(128), draw.randrange(256)])
        data[at : at + draw.randint(0, 1)] = draw.choice([b"", bytes([byte]), data[at : at + 1] * 2])
    return bytes(data)


WEIGHTS = {
    lose_key: 8,
    add_key: 8,
    swap_kind: 8,
    spoil_entry: 4,
    spoil_number: 24,
    spoil_text: 16,
    spoil_script: 8,
    break_net: 16,
    break_several: 12,
    make_large: 2,
    widen: 1,
    overflow: 1,
}
